//! The second player once more, as request K8 has it: fed in parts, byte by byte, it knows nothing of what is still to come. What it says of
//! a part and how much of it fits into an output is the archive's to say likewise.
use crate::plain::Plain;
use crate::recording;
use crate::setup::{Fault, Reader};
use okrozumba::recorder::{BadRun, Parted, Said, LINE};

const EVENT_BYTES: usize = 20;
/// The bytes end too early, and there are some left over.
const S1: u32 = 1;
const S4: u32 = 4;

/// A run whose number of events is accepted.
struct Run {
    plain: Plain,
    many: u32,
    done: u32,
}

#[derive(Default)]
pub struct Player {
    /// What makes nothing whole yet: bytes of the setup and the count, then of an event.
    held: Vec<u8>,
    /// Bytes taken so far.
    place: usize,
    run: Option<Run>,
    refused: bool,
    ended: bool,
}

fn said(fault: Fault) -> Said {
    use okrozumba::Fault::{S1, S2, S3, S4};
    let (number, place) = fault;
    let fault = [S1, S2, S3, S4][number as usize - 1];
    Said::Refused(BadRun { fault, place })
}

fn parted(said: Said, taken: usize, text: String) -> (Parted, String) {
    let written = text.len();
    let parted = Parted {
        said,
        taken,
        written,
    };
    (parted, text)
}

impl Player {
    /// The kernel, once the start line is written.
    pub fn plain(&self) -> Option<&Plain> {
        self.run.as_ref().map(|run| &run.plain)
    }

    /// A part, and an output of so many bytes: what is said, and the text. A byte is taken only while any line would fit behind the text.
    pub fn part(&mut self, bytes: &[u8], room: usize) -> (Parted, String) {
        let mut text = String::new();
        if !bytes.is_empty() && (self.refused || self.ended) {
            return parted(Said::Closed, 0, text);
        }
        for (taken, byte) in bytes.iter().enumerate() {
            if room - text.len() < LINE {
                return parted(Said::Full, taken, text);
            }
            match self.byte(*byte) {
                Ok(line) => text += &line,
                Err(fault) => {
                    self.refused = true;
                    text += &recording::refusal(fault);
                    return parted(said(fault), taken + 1, text);
                }
            }
        }
        parted(Said::Taken, bytes.len(), text)
    }

    /// The end of input, with its own line's room.
    pub fn end(&mut self, room: usize) -> (Parted, String) {
        if self.ended {
            return parted(Said::Closed, 0, String::new());
        }
        let whole = self.run.as_ref().is_some_and(|run| run.done == run.many);
        if whole || self.refused {
            self.ended = true;
            return parted(Said::Taken, 0, String::new());
        }
        let fault = (S1, self.place - self.held.len() % 4);
        let line = recording::refusal(fault);
        if room < line.len() {
            return parted(Said::Full, 0, String::new());
        }
        self.ended = true;
        parted(said(fault), 0, line)
    }

    /// The line that this byte makes whole, mostly none; or the run's refusal.
    fn byte(&mut self, byte: u8) -> Result<String, Fault> {
        let place = self.place;
        self.place += 1;
        self.held.push(byte);
        match &mut self.run {
            None => self.begin(),
            Some(run) if run.done == run.many => Err((S4, place)),
            Some(_) if self.held.len() < EVENT_BYTES => Ok(String::new()),
            Some(run) => {
                let five = recording::five(&mut Reader::new(&self.held))?;
                self.held.clear();
                run.done += 1;
                let answer = run.plain.event(recording::event(five));
                Ok(recording::line(run.done, answer))
            }
        }
    }

    /// Once the count is there, the run begins. Bytes that only end too early may still go on.
    fn begin(&mut self) -> Result<String, Fault> {
        match recording::front(&mut Reader::new(&self.held)) {
            Err((S1, _)) => Ok(String::new()),
            Err(fault) => Err(fault),
            Ok((setup, many)) => {
                self.held.clear();
                let plain = Plain::fresh(&setup);
                let line = recording::start(&plain);
                self.run = Some(Run {
                    plain,
                    many,
                    done: 0,
                });
                Ok(line)
            }
        }
    }
}

#[cfg(test)]
mod tests;
