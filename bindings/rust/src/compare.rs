//! What does a changed setup change? Two setups and one run, in one input.
//!
//! ```
//! use okrozumba::compare::{compare, Short};
//!
//! // Two priorities; two tasks, both started, of priorities 1 and 2; nothing else. In the second setup it is the other way round. One event, get_tid.
//! let first = [2u32, 2, 1, 1, 2, 1, 0, 0, 0, 0, 0, 0];
//! let second = [2u32, 2, 2, 1, 1, 1, 0, 0, 0, 0, 0, 0];
//! let run = [1u32, 0, 26, 0, 0, 0];
//! let words = first.iter().chain(&second).chain(&run);
//! let input: Vec<u8> = words.flat_map(|word| word.to_le_bytes()).collect();
//!
//! // How long is the text?
//! let Err(Short { needed }) = compare(&input, &mut []) else { panic!() };
//! let mut text = vec![0; needed];
//! let long = compare(&input, &mut text).unwrap();
//! assert_eq!(&text[..long], b"1 0 1 0 1 0\n1 0 2 0 2 0\n1\n");
//! ```
use crate::archive;

/// There is no room for the text, which takes so many bytes.
#[derive(Clone, Copy, PartialEq, Eq, Debug)]
pub struct Short {
    /// The text's length.
    pub needed: usize,
}

/// No text is longer.
pub const TEXT: usize = 366_005;

/// Writes, for each event at which the answers from the two setups of an input differ, the two lines, then the number of such events, to the first bytes of
/// an output, and gives the length; what lies behind is left. An input with a fault has a text, too. If there is no room for the text, nothing was written.
/// It takes 190 kB of the stack.
pub fn compare(input: &[u8], text: &mut [u8]) -> Result<usize, Short> {
    // SAFETY: each pointer comes with the length of its slice; the two do not overlap, since one is borrowed mutably.
    let told = unsafe {
        archive::okrozumba_compare(input.as_ptr(), input.len(), text.as_mut_ptr(), text.len())
    };
    match told.number {
        0 => Ok(told.length),
        _ => Err(Short {
            needed: told.length,
        }),
    }
}
