//! The text of a whole recorded run, which [`Recorder`] takes as it comes.
//!
//! ```
//! use okrozumba::playback::{play, Short};
//!
//! // One priority; one task, of priority 1 and started; nothing else; then four events, slp_tsk and a handler: entry, wup_tsk(1), return.
//! let words: [u32; 31] = [
//!     1, 1, 1, 1, 0, 0, 0, 0, 0, 0, 4, 0, 9, 0, 0, 0, 3, 0, 0, 0, 0, 1, 11, 1, 0, 0, 4, 0, 0, 0, 0,
//! ];
//! let file: Vec<u8> = words.iter().flat_map(|word| word.to_le_bytes()).collect();
//!
//! // How long is the text?
//! let Err(Short { needed }) = play(&file, &mut []) else { panic!() };
//! let mut text = vec![0; needed];
//! let long = play(&file, &mut text).unwrap();
//! assert_eq!(&text[..long], b"start 1\n1 1 0 0 0 0\n2 0 0 0 0 0\n3 0 0 0 0 1\n4 0 0 0 1 0\n");
//!
//! // Bytes that end too early are refused, with the offset of the word that isn't whole, behind the lines that stand.
//! let long = play(&file[..66], &mut text).unwrap();
//! assert_eq!(&text[..long], b"start 1\n1 1 0 0 0 0\nrefused 1 64\n");
//! ```
use std::io;

use crate::recorder::Recorder;

/// There is no place for the text, which takes so many bytes.
#[derive(Clone, Copy, PartialEq, Eq, Debug)]
pub struct Short {
    /// The text's length.
    pub needed: usize,
}

/// Writes the text of a recorded run to the first bytes of an output and gives its length; what lies behind is left. A file with a fault has a
/// text, too. If there is no place for the text, nothing was written. The file is played twice: the text's length is counted first.
pub fn play(file: &[u8], text: &mut [u8]) -> Result<usize, Short> {
    let mut count = Count(0);
    write(file, &mut count);
    let Count(needed) = count;
    if text.len() < needed {
        return Err(Short { needed });
    }
    write(file, &mut &mut text[..needed]);
    Ok(needed)
}

/// The whole text, to an output that has place for it.
fn write(file: &[u8], out: &mut impl io::Write) {
    let mut recorder = Recorder::new();
    recorder
        .take(file, out)
        .and_then(|_| recorder.finish(out))
        .expect("there is place for the text");
}

/// An output that only counts.
struct Count(usize);

impl io::Write for Count {
    fn write(&mut self, bytes: &[u8]) -> io::Result<usize> {
        self.0 += bytes.len();
        Ok(bytes.len())
    }

    fn flush(&mut self) -> io::Result<()> {
        Ok(())
    }
}
