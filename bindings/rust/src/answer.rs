//! What comes back of events, and what cells hold.
use core::fmt;

use crate::Code;

/// What comes back of an event. `w1` and `w2` are 0 unless a call or a code names them. On a damaged state the code says the first rule
/// broken, `w1` the smallest id that breaks it, and all else is 0.
#[repr(C)]
#[derive(Clone, Copy, PartialEq, Eq, Debug, Default)]
pub struct Answer {
    /// The number of its code, one of [`code`](crate::code); [`Answer::code()`] has it by name.
    pub code: i32,
    /// The call's first word; of [`Code::H_QUEUE`], [`Code::H_SERVED`], [`Code::H_TWICE`] and [`Code::H_FREE`] the task, waiter, message or
    /// pool.
    pub w1: u32,
    /// The call's second word.
    pub w2: u32,
    /// The running task after the event, while a handler is open the one at the outermost entry; 0 if none.
    pub running: u32,
    /// The number of tasks released from a wait.
    pub released: u32,
}

impl Answer {
    /// Its code, by name.
    pub const fn code(&self) -> Code {
        Code::of(self.code)
    }

    /// The answer, if the event was done or its caller waits; the code, if it was refused.
    pub const fn done(self) -> Result<Answer, Code> {
        if self.code().is_refusal() {
            Err(self.code())
        } else {
            Ok(self)
        }
    }
}

/// All of it, the code by its name: `E_OK, w1 0, w2 0, runs 1, released 0`.
impl fmt::Display for Answer {
    fn fmt(&self, f: &mut fmt::Formatter<'_>) -> fmt::Result {
        write!(
            f,
            "{}, w1 {}, w2 {}, runs {}, released {}",
            self.code(),
            self.w1,
            self.w2,
            self.running,
            self.released
        )
    }
}

/// An answer cell: the code that the task was last released from a wait with, and the pattern, message or block that it got. A wait that
/// ends since the task is terminated writes nothing.
#[repr(C)]
#[derive(Clone, Copy, PartialEq, Eq, Debug, Default)]
pub struct Cell {
    /// The number of [`Code::E_OK`], [`Code::E_TMOUT`] or [`Code::E_RLWAI`]; if there was nothing to read, of [`Code::E_NOEXS`] or the
    /// damage. [`Cell::code()`] has it by name.
    pub code: i32,
    /// 0 unless a wait was served with a pattern, a message or a block.
    pub word: u32,
}

impl Cell {
    /// Its code, by name.
    pub const fn code(&self) -> Code {
        Code::of(self.code)
    }
}

/// Both, the code by its name: `E_RLWAI, word 0`.
impl fmt::Display for Cell {
    fn fmt(&self, f: &mut fmt::Formatter<'_>) -> fmt::Result {
        write!(f, "{}, word {}", self.code(), self.word)
    }
}
