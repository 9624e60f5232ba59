//! The kernel in C of `tests/c`, unproved: what `bench` measures the proved one against beside `rings`. Its state is mirrored here, field
//! by field, for the tests; what the fields mean stands in `peer.h`.
use crate::recording::Five;
use crate::setup::{Fault, ALARMS};
use okrozumba::Answer;
use std::mem::MaybeUninit;

pub const PRIORITIES: usize = 16;
pub const TASKS: usize = 32;
pub const OBJECTS: usize = 16;
pub const MESSAGES: usize = 256;
pub const POOLS: usize = 8;
pub const BLOCKS: usize = 32;

/// Addresses of nodes.
#[repr(C)]
#[derive(Clone, Copy)]
pub struct Queue {
    pub next: usize,
    pub prev: usize,
}

#[repr(C)]
pub struct Task {
    pub node: Queue,
    pub status: u32,
    pub priority: u32,
    pub start: u32,
    pub wakeups: u32,
    pub kind: u32,
    pub object: u32,
    pub wish: u32,
    pub mode: u32,
    pub due: u32,
    pub code: i32,
    pub word: u32,
}

/// A semaphore with its count, or a flag with its pattern.
#[repr(C)]
pub struct Counted {
    pub waiters: Queue,
    pub word: u32,
}

#[repr(C)]
pub struct Mailbox {
    pub waiters: Queue,
    pub first: u32,
    pub last: u32,
}

#[repr(C)]
pub struct Pool {
    pub waiters: Queue,
    pub blocks: u32,
    pub free: u32,
    pub head: u32,
    pub count: u32,
    pub line: [u8; BLOCKS],
}

#[repr(C)]
pub struct Alarm {
    pub task: u32,
    pub wakes: u32,
    pub kept: i32,
    pub expiry: u32,
    pub period: u32,
}

#[repr(C)]
pub struct State {
    pub running: u32,
    pub depth: u32,
    pub ready: u32,
    pub timed: u32,
    pub soonest: u32,
    pub round: u32,
    pub present: u32,
    pub used: u32,
    pub until: u32,
    pub priorities: u32,
    pub tasks: u32,
    pub semaphores: u32,
    pub flags: u32,
    pub mailboxes: u32,
    pub messages: u32,
    pub pools: u32,
    pub clock: u64,
    pub task: [Task; TASKS + 1],
    pub ready_queue: [Queue; PRIORITIES + 1],
    pub semaphore: [Counted; OBJECTS],
    pub flag: [Counted; OBJECTS],
    pub mailbox: [Mailbox; OBJECTS],
    pub pool: [Pool; POOLS],
    pub alarm: [Alarm; ALARMS],
    pub next: [u16; MESSAGES + 1],
    pub lies_in: [u8; MESSAGES + 1],
}

#[repr(C)]
struct Refusal {
    fault: u32,
    place: usize,
}

type Play = unsafe extern "C" fn(*mut State, *const Five, usize, *mut i32, *mut [u32; 4]);

extern "C" {
    fn peer_start(k: *mut State, bytes: *const u8, length: usize) -> Refusal;
    fn peer_copy(to: *mut State, from: *const State);
    fn peer_events(
        k: *mut State,
        events: *const Five,
        many: usize,
        codes: *mut i32,
        answers: *mut [u32; 4],
    );
    fn peer_checked_events(
        k: *mut State,
        events: *const Five,
        many: usize,
        codes: *mut i32,
        answers: *mut [u32; 4],
    );
    fn peer_cell(k: *const State, task: i32, word: *mut u32) -> i32;
    fn peer_size() -> usize;
}

/// It stays where it is, since its queues are links between its parts.
pub struct Peer(Box<State>);

impl Clone for Peer {
    fn clone(&self) -> Peer {
        let mut copy = Box::<State>::new_uninit();
        // SAFETY: peer_copy writes all of the copy, and reads a state.
        unsafe {
            peer_copy(copy.as_mut_ptr(), &*self.0);
            Peer(copy.assume_init())
        }
    }
}

impl Peer {
    /// The fresh state of a setup's bytes.
    pub fn start(bytes: &[u8]) -> Result<Peer, Fault> {
        // SAFETY: it looks at no memory.
        assert_eq!(unsafe { peer_size() }, size_of::<State>(), "the mirror");
        let mut fresh: Box<MaybeUninit<State>> = Box::new_uninit();
        // SAFETY: the bytes are read within their length; a setup that is not refused has all of the state written.
        unsafe {
            match peer_start(fresh.as_mut_ptr(), bytes.as_ptr(), bytes.len()) {
                Refusal { fault: 0, .. } => Ok(Peer(fresh.assume_init())),
                Refusal { fault, place } => Err((fault, place)),
            }
        }
    }

    pub fn state(&self) -> &State {
        &self.0
    }

    /// For damage: afterwards only `checked_events` may run.
    pub fn state_mut(&mut self) -> &mut State {
        &mut self.0
    }

    fn play(&mut self, by: Play, events: &[i32], codes: &mut [i32], words: &mut [u32]) {
        let (events, _) = events.as_chunks::<5>();
        let (words, _) = words.as_chunks_mut::<4>();
        let many = events.len();
        assert!(many == codes.len() && many == words.len(), "places");
        // SAFETY: there are as many places for codes and for words as there are events, and the state is the peer's own.
        unsafe {
            by(
                &mut *self.0,
                events.as_ptr(),
                many,
                codes.as_mut_ptr(),
                words.as_mut_ptr(),
            );
        }
    }

    /// Events one after the other; codes and words are written as `State::events` of the archive writes them.
    pub fn events(&mut self, events: &[i32], codes: &mut [i32], words: &mut [u32]) {
        self.play(peer_events, events, codes, words);
    }

    /// The same on a state that may be damaged.
    pub fn checked_events(&mut self, events: &[i32], codes: &mut [i32], words: &mut [u32]) {
        self.play(peer_checked_events, events, codes, words);
    }

    fn one(&mut self, by: Play, event: &Five) -> Answer {
        let (mut code, mut words) = ([0], [0; 4]);
        self.play(by, event, &mut code, &mut words);
        let ([code], [w1, w2, running, released]) = (code, words);
        Answer {
            code,
            w1,
            w2,
            running,
            released,
        }
    }

    pub fn event(&mut self, event: &Five) -> Answer {
        self.one(peer_events, event)
    }

    pub fn checked_event(&mut self, event: &Five) -> Answer {
        self.one(peer_checked_events, event)
    }

    pub fn running(&self) -> u32 {
        self.0.running
    }

    /// A task's answer cell: code and word.
    pub fn cell(&self, task: i32) -> (i32, u32) {
        let mut word = 0;
        // SAFETY: it reads a state and writes the word.
        let code = unsafe { peer_cell(&*self.0, task, &mut word) };
        (code, word)
    }
}

#[cfg(test)]
mod tests;
