//! Figures of recorded runs: after how many events each task was in each state, and how often each code came back; and the totals of a month.
//!
//! A run may come in parts of any size, and its figures are the same. Of one that is refused on its way the whole events before count. Tasks
//! beyond the setup's number are not counted.
//!
//! ```
//! use okrozumba::figures::{month, Counter, NoReport, COUNTS};
//! use okrozumba::recorder::Said;
//!
//! // One priority; one task, of priority 1 and started; nothing else; then two events, slp_tsk and a tick.
//! let words: [u32; 21] = [1, 1, 1, 1, 0, 0, 0, 0, 0, 0, 2, 0, 9, 0, 0, 0, 2, 0, 0, 0, 0];
//! let file: Vec<u8> = words.iter().flat_map(|word| word.to_le_bytes()).collect();
//!
//! let mut counter = Counter::new();
//! assert_eq!(counter.part(&file[..50]), Said::Taken);
//! assert_eq!(counter.part(&file[50..]), Said::Taken);
//! assert_eq!(counter.end(), Said::Taken);
//! let record = counter.record();
//! // task 1 waits after both; slp_tsk came back with code 1, the tick with 0
//! assert_eq!(record.in_state(1, 3), Some(2));
//! assert_eq!((record.of_code(1), record.of_code(0), record.of_code(-9)), (Some(1), Some(1), None));
//!
//! let mut out = [0; COUNTS];
//! assert_eq!(month(&[record; 64], &mut out), Ok(()));
//! assert_eq!(out[3], 128);
//! assert_eq!(month(&[record; 65], &mut out), Err(NoReport::T1));
//! ```
use crate::archive;
use crate::recorder::{said, Recorder, Said, LINE};

/// Rows of a run's table: tasks by id, from task 1.
pub use crate::TASKS;
/// States of a task: those of tsk_sts, and 6 where it is not there.
pub const STATES: usize = 7;
/// The codes that are counted, in their order.
pub const CODES: [i32; 29] = [
    0, 1, -1, -2, -3, -4, -5, -6, -7, -8, -10, -11, -12, -20, -21, -22, -23, -24, -1830, -1831,
    -2097, -2100, -2101, -2104, -2110, -2629, -2889, -3413, -3414,
];
/// Numbers of a record.
pub const COUNTS: usize = 253;
/// The most records of a month.
pub const RECORDS: usize = 64;

/// A run on its way that is counted. A count of 2^32 - 1 stays.
#[derive(Clone, PartialEq, Eq, Debug)]
pub struct Counter {
    recorder: Recorder,
    table: [[u32; STATES]; TASKS],
    codes: [u32; CODES.len()],
}

impl Default for Counter {
    fn default() -> Counter {
        Counter::new()
    }
}

impl Counter {
    /// One that nothing was given to.
    pub fn new() -> Counter {
        Counter::of(Recorder::new(), [[0; STATES]; TASKS], [0; CODES.len()])
    }

    /// One with any content.
    pub fn of(
        recorder: Recorder,
        table: [[u32; STATES]; TASKS],
        codes: [u32; CODES.len()],
    ) -> Counter {
        Counter {
            recorder,
            table,
            codes,
        }
    }

    /// Takes a whole part and counts the events that it completes; never [`Said::Full`].
    pub fn part(&mut self, bytes: &[u8]) -> Said {
        let recorder = &mut self.recorder;
        // SAFETY: the pointer goes with its slice's length, the arrays have the sizes that are asked, and the borrows keep all apart.
        let counted = unsafe {
            archive::okrozumba_count(
                &mut recorder.numbers,
                &mut recorder.held,
                &mut recorder.state.words,
                &mut recorder.state.messages,
                &mut self.table,
                &mut self.codes,
                bytes.as_ptr(),
                bytes.len(),
            )
        };
        said(counted.number, counted.place)
    }

    /// The end of input, once: if the run is not whole it is refused here; never [`Said::Full`].
    pub fn end(&mut self) -> Said {
        self.recorder.end(&mut [0; LINE]).said
    }

    /// What was counted so far.
    pub fn record(&self) -> Record {
        // SAFETY: arrays of the sizes that are asked.
        unsafe { archive::okrozumba_record_of(&self.table, &self.codes) }
    }

    /// The run, with its kernel.
    pub fn recorder(&self) -> &Recorder {
        &self.recorder
    }
}

/// The figures of a run in a row: of each task, by id, the states 0 to 6, then the codes.
#[derive(Clone, Copy, PartialEq, Eq, Debug)]
#[repr(C)]
pub struct Record {
    /// Those numbers.
    pub counts: [u32; COUNTS],
}

impl Record {
    /// After how many events task 1 to 32 was in a state, 0 to 6.
    pub fn in_state(&self, task: usize, state: usize) -> Option<u32> {
        let is_there = (1..=TASKS).contains(&task) && state < STATES;
        is_there.then(|| self.counts[STATES * (task - 1) + state])
    }

    /// How often a code of [`CODES`] came back.
    pub fn of_code(&self, code: i32) -> Option<u32> {
        let place = CODES.iter().position(|c| *c == code)?;
        Some(self.counts[STATES * TASKS + place])
    }
}

/// Why there is no report of a month: the first that applies.
#[derive(Clone, Copy, PartialEq, Eq, Debug)]
pub enum NoReport {
    /// More than [`RECORDS`] records.
    T1,
    /// An output that is not [`COUNTS`] long.
    T2,
    /// A total beyond 2^32 - 1.
    T3,
}

/// The totals of the records, number by number, in the output; or why there is no report, and the output as it was.
pub fn month(records: &[Record], out: &mut [u32]) -> Result<(), NoReport> {
    // SAFETY: each pointer goes with its slice's length, and the borrows keep them apart.
    let number = unsafe {
        archive::okrozumba_month(records.as_ptr(), records.len(), out.as_mut_ptr(), out.len())
    };
    match number {
        0 => Ok(()),
        1 => Err(NoReport::T1),
        2 => Err(NoReport::T2),
        _ => Err(NoReport::T3),
    }
}
