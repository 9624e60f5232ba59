//! The setups of the benchmark.
use crate::setup::{Counter, Setup};

/// The size of a counter among mixed events.
const ROUND: u32 = 100;

/// Every task has its turn of the priorities; the first of them are started.
fn sized(
    priorities: u32,
    tasks: u32,
    started: u32,
    objects: usize,
    messages: u32,
    pools: usize,
    blocks: u32,
) -> Setup {
    Setup {
        priorities,
        tasks: (0..tasks)
            .map(|t| (1 + t % priorities, t < started))
            .collect(),
        semaphores: vec![0; objects],
        flags: vec![0; objects],
        mailboxes: objects as u32,
        messages,
        pools: vec![blocks; pools],
        counter: None,
    }
}

/// With a counter, whose alarms start and wake the tasks in turn.
pub fn counted(size: u32, s: Setup) -> Setup {
    let tasks = s.tasks.len();
    Setup {
        counter: Some(Counter {
            size,
            alarms: std::array::from_fn(|i| (1 + (i % tasks) as u32, i % 2 == 1)),
        }),
        ..s
    }
}

/// The bench sheet's, with a counter.
pub fn small() -> Setup {
    let sheet = Setup {
        tasks: vec![(2, true), (2, true), (1, false)],
        ..sized(4, 3, 2, 1, 2, 1, 2)
    };
    counted(ROUND, sheet)
}

pub fn middle() -> Setup {
    counted(ROUND, sized(6, 8, 6, 4, 32, 2, 8))
}

pub fn large() -> Setup {
    counted(ROUND, sized(16, 32, 24, 16, 256, 8, 32))
}

/// As large, but for the tasks, all of which are started, and with no counter.
pub fn with_tasks(tasks: u32) -> Setup {
    sized(16, tasks, tasks, 16, 256, 8, 32)
}
