//! Recorded runs as they come: setup, number of events (0 to 1,000,000) and events in parts, in fixed memory. However the bytes are divided,
//! the text, the last state and the refusal are the same.
//!
//! The text has "start" and the running task once the number of events is accepted, then a line for each whole event. A run with a fault ends
//! with the line "refused", digit of the fault, place from the first byte of all.
//!
//! ```
//! use okrozumba::recorder::{Recorder, Said, LINE};
//!
//! // One priority; one task, of priority 1 and started; nothing else; then one event, slp_tsk.
//! let words: [u32; 16] = [1, 1, 1, 1, 0, 0, 0, 0, 0, 0, 1, 0, 9, 0, 0, 0];
//! let file: Vec<u8> = words.iter().flat_map(|word| word.to_le_bytes()).collect();
//!
//! let mut recorder = Recorder::new();
//! let mut text = [0; LINE];
//! let mut told = recorder.part(&file[..45], &mut text);
//! assert_eq!((told.said, told.written), (Said::Full, 8));
//! assert_eq!(&text[..8], b"start 1\n");
//! // the rest of that part is the next one
//! told = recorder.part(&file[told.taken..], &mut text);
//! assert_eq!((told.said, &text[..told.written]), (Said::Taken, &b"1 1 0 0 0 0\n"[..]));
//! assert_eq!(recorder.end(&mut text).said, Said::Taken);
//! assert_eq!(recorder.part(&[1], &mut text).said, Said::Closed);
//! assert_eq!(recorder.state().running(), 0);
//! ```
use crate::{archive, fault, Fault, State, MESSAGES, STATE_WORDS};
#[cfg(feature = "std")]
use std::io::{self, Write};

/// Numbers of a recorder.
pub const NUMBERS: usize = 5;
/// Bytes that a recorder holds: of the setup and the number of events, then of an event.
pub const HELD: usize = 520;
/// No line is longer: with so much room at least one byte of a part is taken.
pub const LINE: usize = 67;

/// The fault of a run, and its place from the first byte of all.
#[derive(Clone, Copy, PartialEq, Eq, Debug)]
pub struct BadRun {
    /// What is wrong.
    pub fault: Fault,
    /// Where, in bytes.
    pub place: usize,
}

/// What a part or an end says.
#[derive(Clone, Copy, PartialEq, Eq, Debug)]
pub enum Said {
    /// The whole part was taken; or it is the end.
    Taken,
    /// The run is refused here; its line is the last one written.
    Refused(BadRun),
    /// S5, a nonempty part behind the end or a refusal, or another end: nothing was written, nothing changed.
    Closed,
    /// The room ran out: the rest of the part is the next part. Of an end, nothing changed.
    Full,
}

/// What came of a part or an end.
#[derive(Clone, Copy, PartialEq, Eq, Debug)]
pub struct Parted {
    /// What is said.
    pub said: Said,
    /// Bytes of the part that were taken, a refused one too.
    pub taken: usize,
    /// Bytes of text at the front of the output; what lies behind is left.
    pub written: usize,
}

/// A run on its way: what it holds of its bytes, and its kernel.
#[derive(Clone, PartialEq, Eq, Debug)]
pub struct Recorder {
    pub(crate) numbers: [u32; NUMBERS],
    pub(crate) held: [u8; HELD],
    pub(crate) state: State,
}

impl Default for Recorder {
    fn default() -> Recorder {
        Recorder::new()
    }
}

pub(crate) fn said(number: u32, place: usize) -> Said {
    match number {
        0 => Said::Taken,
        5 => Said::Closed,
        6 => Said::Full,
        number => Said::Refused(BadRun {
            fault: fault(number),
            place,
        }),
    }
}

fn told(parted: archive::Parted) -> Parted {
    Parted {
        said: said(parted.number, parted.place),
        taken: parted.taken,
        written: parted.written,
    }
}

impl Recorder {
    /// One that nothing was given to.
    pub fn new() -> Recorder {
        let state = State::of([0; STATE_WORDS], [0; MESSAGES]);
        let mut recorder = Recorder::of([0; NUMBERS], [0; HELD], state);
        // SAFETY: an array of the size that is asked.
        unsafe { archive::okrozumba_begin(&mut recorder.numbers) };
        recorder
    }

    /// One with any content: what [`Recorder::numbers`], [`Recorder::held`] and [`Recorder::state`] gave, or anything else.
    pub fn of(numbers: [u32; NUMBERS], held: [u8; HELD], state: State) -> Recorder {
        Recorder {
            numbers,
            held,
            state,
        }
    }

    /// Takes bytes of a part as long as there is room for any line ([`LINE`]) and writes their lines to the front of the text. An empty part
    /// changes nothing.
    pub fn part(&mut self, bytes: &[u8], text: &mut [u8]) -> Parted {
        // SAFETY: each pointer goes with its slice's length, the arrays have the sizes that are asked, and the borrows keep all apart.
        told(unsafe {
            archive::okrozumba_part(
                &mut self.numbers,
                &mut self.held,
                &mut self.state.words,
                &mut self.state.messages,
                bytes.as_ptr(),
                bytes.len(),
                text.as_mut_ptr(),
                text.len(),
            )
        })
    }

    /// The end of input, once: if the run is not whole it is refused here, as long as there is room for that line.
    pub fn end(&mut self, text: &mut [u8]) -> Parted {
        // SAFETY: as in `part`.
        told(unsafe {
            archive::okrozumba_end(&mut self.numbers, &self.held, text.as_mut_ptr(), text.len())
        })
    }

    /// Takes a whole part and writes its lines; never [`Said::Full`].
    #[cfg(feature = "std")]
    pub fn take(&mut self, bytes: &[u8], out: &mut impl Write) -> io::Result<Said> {
        let mut text = [0; 64 * LINE];
        let mut rest = bytes;
        loop {
            let told = self.part(rest, &mut text);
            out.write_all(&text[..told.written])?;
            if told.said != Said::Full {
                return Ok(told.said);
            }
            rest = &rest[told.taken..];
        }
    }

    /// The end of input, with its line if it has one; never [`Said::Full`].
    #[cfg(feature = "std")]
    pub fn finish(&mut self, out: &mut impl Write) -> io::Result<Said> {
        let mut text = [0; LINE];
        let told = self.end(&mut text);
        out.write_all(&text[..told.written])?;
        Ok(told.said)
    }

    /// The kernel, which is the run's once the start line is written.
    pub fn state(&self) -> &State {
        &self.state
    }

    /// How far the run is; only the archive gives these a meaning.
    pub fn numbers(&self) -> &[u32; NUMBERS] {
        &self.numbers
    }

    /// The bytes that make nothing whole yet, at the front.
    pub fn held(&self) -> &[u8; HELD] {
        &self.held
    }
}
