//! Okrozumba, a small μITRON kernel that was proved in Rattle, for programs in Rust.
//!
//! A kernel is a [`State`]: two arrays that the program owns. [`State::start`] makes a fresh one from a setup. Each of the 39 calls is a
//! method by the manual's name, [`State::sig_sem`] and so on, and [`State::call`] makes a call by its number. They and [`State::tick`],
//! [`State::enter`] and [`State::leave`] carry the kernel from event to event, [`State::cell`] reads what a task was last released from a
//! wait with, [`State::states`] the states of all tasks, [`State::events`] and [`State::run`] play many events at once. Nothing is kept
//! elsewhere: a clone is a second kernel in the same state. [`playback::play`] gives the text of a recorded run, [`recorder::Recorder`]
//! that of one that comes in parts. [`figures`] counts recorded runs and adds up a month of them. [`brightness`] is a display's light,
//! whose readings arrive as messages.
//!
//! Every function is defined for every argument and every content of the arrays, and says by its answer what was wrong; so all of them
//! are safe. That is what the kernel's proofs promise of the functions that this crate wraps (`include/okrozumba.h`).
//!
//! # The archive
//!
//! `rt lib --cpu x86-64`, in the repository's folder `crates/okrozumba`, proves the kernel and writes `out/libokrozumba.a` there, for x86-64
//! Linux; the build script links that. Set `OKROZUMBA_ARCHIVE` to another folder with a `libokrozumba.a` to link that one. The archive needs
//! no more of the C library than `memset` and `memcpy`.
//!
//! # Example
//!
//! ```
//! use okrozumba::{Code, Context, State};
//!
//! // One priority; one task, of priority 1 and started; one semaphore, of count 0; nothing else.
//! let words: [u32; 10] = [1, 1, 1, 1, 1, 0, 0, 0, 0, 0];
//! let setup: Vec<u8> = words.iter().flat_map(|word| word.to_le_bytes()).collect();
//!
//! let mut kernel = State::start(&setup).unwrap();
//! assert_eq!(kernel.running(), 1);
//! let waits = kernel.wai_sem(Context::Task, 1);
//! assert_eq!((waits.code(), waits.running), (Code::WAITS, 0));
//! kernel.enter();
//! let broken = kernel.rel_wai(Context::Handler, 1);
//! assert_eq!(broken.to_string(), "E_OK, w1 0, w2 0, runs 0, released 1");
//! assert_eq!(kernel.leave().running, 1);
//! assert_eq!(kernel.cell(1).code(), Code::E_RLWAI);
//!
//! // What is refused goes on by `?`.
//! fn sleep(setup: &[u8]) -> Result<(), Box<dyn std::error::Error>> {
//!     let mut kernel = State::start(setup)?;
//!     kernel.slp_tsk(Context::Handler).done()?;
//!     Ok(())
//! }
//! assert_eq!(sleep(&setup).unwrap_err().to_string(), "E_CTX");
//! let text = "the setup has a fault at byte 4: S1, the bytes end before a needed word is whole";
//! assert_eq!(sleep(&setup[..4]).unwrap_err().to_string(), text);
//! ```
//!
//! # Features
//!
//! `std`, on unless it is switched off: [`recorder::Recorder`] writes its lines to any `std::io::Write`, and [`playback`] is over that. Nothing else
//! needs the standard library.
#![no_std]
#![warn(missing_docs)]

#[cfg(feature = "std")]
extern crate std;

mod answer;
mod archive;
pub mod brightness;
pub mod call;
mod calls;
pub mod code;
pub mod compare;
mod errors;
pub mod figures;
#[cfg(feature = "std")]
pub mod playback;
pub mod recorder;
mod states;

pub use answer::{Answer, Cell};
pub use calls::Context;
pub use code::Code;
pub use states::{TaskState, TaskStates};

/// Words of a state, without the marks of the messages.
pub const STATE_WORDS: usize = 1760;
/// Messages that a state has room for.
pub const MESSAGES: usize = 256;
/// The most tasks of a setup.
pub const TASKS: usize = 32;
/// Words of an event in [`State::events`]: kind, number, a, b, c.
pub const EVENT_WORDS: usize = 5;
/// Words that [`State::events`] answers an event with, beside its code: w1, w2, running, released.
pub const ANSWER_WORDS: usize = 4;
/// The time of wai_tsk that never ends.
pub const FOR_EVER: i32 = -1;

/// Who makes a call ([`Context`] by number); and the kind of an event in [`State::events`].
pub mod context {
    /// The running task calls.
    pub const TASK: i32 = 0;
    /// An interrupt handler calls; one must be open.
    pub const HANDLER: i32 = 1;
    /// Among many events only: no call, the clock rises by one.
    pub const TICK: i32 = 2;
    /// Among many events only: no call, a handler is entered.
    pub const ENTRY: i32 = 3;
    /// Among many events only: no call, a handler returns.
    pub const RETURN: i32 = 4;
}

/// The mode of a wait for a flag: 0 asks for all bits of the pattern; add these up.
pub mod mode {
    /// Any bit of the pattern will do.
    pub const ANY_BIT: i32 = 1;
    /// On success the flag's pattern becomes 0.
    pub const CLEAR_ALL: i32 = 2;
}

/// The numbers of a task's states, as tsk_sts gives them ([`TaskState`] has them by name).
pub mod task_state {
    /// Not started, or ended.
    pub const DORMANT: u32 = 0;
    /// In a ready queue behind the running task.
    pub const READY: u32 = 1;
    /// The running task; while a handler is open, the one at the outermost entry unless it is suspended.
    pub const RUN: u32 = 2;
    /// Waiting.
    pub const WAIT: u32 = 3;
    /// Suspended.
    pub const SUSPEND: u32 = 4;
    /// Waiting and suspended.
    pub const WAIT_SUSPEND: u32 = 5;
    /// Not there: deleted and not made again. tsk_sts refuses such a task.
    pub const ABSENT: u32 = 6;
}

/// What is wrong with a setup.
#[derive(Clone, Copy, PartialEq, Eq, Debug)]
pub enum Fault {
    /// The bytes end before a needed word is whole.
    S1,
    /// A count outside its range.
    S2,
    /// An entry outside its range.
    S3,
    /// Bytes left over.
    S4,
}

/// A setup's first fault, and the offset of the word or byte that has it.
#[derive(Clone, Copy, PartialEq, Eq, Debug)]
pub struct BadSetup {
    /// What is wrong.
    pub fault: Fault,
    /// Where, in bytes.
    pub place: usize,
}

/// Why no event was served.
#[derive(Clone, Copy, PartialEq, Eq, Debug)]
pub enum Unfit {
    /// The event words are no multiple of five.
    Ragged,
    /// No place for a code of each event.
    FewCodes,
    /// No place for four words of each event.
    FewWords,
}

/// Why nothing was run.
#[derive(Clone, Copy, PartialEq, Eq, Debug)]
pub enum Refusal {
    /// The events or the places for their answers; this is looked at first.
    Events(Unfit),
    /// The setup.
    Setup(BadSetup),
}

fn fault(number: u32) -> Fault {
    match number {
        1 => Fault::S1,
        2 => Fault::S2,
        3 => Fault::S3,
        4 => Fault::S4,
        _ => panic!("the archive said what its header doesn't have"),
    }
}

fn unfit(number: u32) -> Unfit {
    match number {
        1 => Unfit::Ragged,
        2 => Unfit::FewCodes,
        3 => Unfit::FewWords,
        _ => panic!("the archive said what its header doesn't have"),
    }
}

/// A kernel: its whole memory.
#[derive(Clone, PartialEq, Eq, Debug)]
pub struct State {
    words: [u32; STATE_WORDS],
    messages: [u32; MESSAGES],
}

impl State {
    /// The fresh kernel of a setup.
    pub fn start(setup: &[u8]) -> Result<State, BadSetup> {
        let mut fresh = State::of([0; STATE_WORDS], [0; MESSAGES]);
        fresh.restart(setup)?;
        Ok(fresh)
    }

    /// Makes this the fresh kernel of a setup, whatever it was; a setup with a fault leaves it as it was.
    pub fn restart(&mut self, setup: &[u8]) -> Result<(), BadSetup> {
        // SAFETY: the pointer goes with its slice's length, and the borrows keep all apart.
        let outcome = unsafe {
            archive::okrozumba_start(
                setup.as_ptr(),
                setup.len(),
                &mut self.words,
                &mut self.messages,
            )
        };
        match outcome.number {
            0 => Ok(()),
            number => Err(BadSetup {
                fault: fault(number),
                place: outcome.place,
            }),
        }
    }

    /// A kernel from its words, as [`State::words`] and [`State::messages`] gave them or any others. If they are no sound state, every
    /// event is refused with what is damaged, [`code::H_NUMBER`] to [`code::H_FREE`].
    pub fn of(words: [u32; STATE_WORDS], messages: [u32; MESSAGES]) -> State {
        State { words, messages }
    }

    /// The kernel's words.
    pub fn words(&self) -> &[u32; STATE_WORDS] {
        &self.words
    }

    /// The marks of the messages.
    pub fn messages(&self) -> &[u32; MESSAGES] {
        &self.messages
    }

    /// A call from a context ([`context::TASK`] or [`context::HANDLER`]) by its number ([`call`]). Words that the call doesn't take are
    /// ignored. A negative code says that nothing changed. Tasks call while no handler is open, handlers while one is.
    pub fn call(&mut self, context: i32, number: i32, a: i32, b: i32, c: i32) -> Answer {
        // SAFETY: two arrays of the size that is asked, borrowed apart.
        unsafe {
            archive::okrozumba_call(
                &mut self.words,
                &mut self.messages,
                context,
                number,
                a,
                b,
                c,
            )
        }
    }

    /// A tick: the clock rises, timed waits that run out end, the counter goes one on, and alarms that are due fire.
    pub fn tick(&mut self) -> Answer {
        // SAFETY: as in `call`.
        unsafe { archive::okrozumba_tick(&mut self.words, &self.messages) }
    }

    /// A handler is entered, up to 15 in each other: while one is open no task is switched, and the running task reported is the one at the
    /// outermost entry.
    pub fn enter(&mut self) -> Answer {
        // SAFETY: as in `call`.
        unsafe { archive::okrozumba_enter(&mut self.words, &self.messages) }
    }

    /// A handler returns; behind the outermost the best ready task runs.
    pub fn leave(&mut self) -> Answer {
        // SAFETY: as in `call`.
        unsafe { archive::okrozumba_leave(&mut self.words, &self.messages) }
    }

    /// The answer cell of a task: on a damaged state the code that an event gets, then [`code::E_NOEXS`] for a bad id or a task
    /// that is not there, each with word 0.
    pub fn cell(&self, task: i32) -> Cell {
        // SAFETY: as in `call`.
        unsafe { archive::okrozumba_cell(&self.words, &self.messages, task) }
    }

    /// The running task, while a handler is open the one at the outermost entry; 0 if there is none, and on a damaged state.
    pub fn running(&self) -> u32 {
        // SAFETY: as in `call`.
        unsafe { archive::okrozumba_running(&self.words, &self.messages) }
    }

    /// Events one after the other, [`EVENT_WORDS`] words each: kind ([`context`]), number, a, b, c. The code of event i goes to
    /// `codes[i]`, its other words to `answers[4 * i..4 * i + 4]`; what lies behind the last is left. The answers are those of one call after
    /// the other; it is quicker, since the state is looked at for damage once. If it is refused, nothing was written.
    pub fn events(
        &mut self,
        events: &[i32],
        codes: &mut [i32],
        answers: &mut [u32],
    ) -> Result<(), Unfit> {
        // SAFETY: each pointer goes with its slice's length, and the borrows keep all apart.
        let number = unsafe {
            archive::okrozumba_events(
                &mut self.words,
                &mut self.messages,
                events.as_ptr(),
                events.len(),
                codes.as_mut_ptr(),
                codes.len(),
                answers.as_mut_ptr(),
                answers.len(),
            )
        };
        match number {
            0 => Ok(()),
            number => Err(unfit(number)),
        }
    }

    /// [`State::restart`] and then [`State::events`]. If it is refused, nothing was written.
    pub fn run(
        &mut self,
        setup: &[u8],
        events: &[i32],
        codes: &mut [i32],
        answers: &mut [u32],
    ) -> Result<(), Refusal> {
        // SAFETY: as in `events`.
        let outcome = unsafe {
            archive::okrozumba_run(
                setup.as_ptr(),
                setup.len(),
                &mut self.words,
                &mut self.messages,
                events.as_ptr(),
                events.len(),
                codes.as_mut_ptr(),
                codes.len(),
                answers.as_mut_ptr(),
                answers.len(),
            )
        };
        match outcome.number {
            0 => Ok(()),
            number @ 1..=3 => Err(Refusal::Events(unfit(number))),
            number => Err(Refusal::Setup(BadSetup {
                fault: fault(number - 10),
                place: outcome.place,
            })),
        }
    }
}
