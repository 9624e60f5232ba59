//! A second count of a run's figures, by the second kernel: after how many events each task was in each state, and how often each code came back.
use crate::picture::Standing;
use crate::plain::Plain;
use crate::recording::{self, Recording};

pub const TASKS: usize = 32;
pub const STATES: usize = 7;
pub const COUNTS: usize = TASKS * STATES + CODES.len();

/// The codes in the report's order.
pub const CODES: [i32; 29] = [
    0, 1, -1, -2, -3, -4, -5, -6, -7, -8, -10, -11, -12, -20, -21, -22, -23, -24, -1830, -1831,
    -2097, -2100, -2101, -2104, -2110, -2629, -2889, -3413, -3414,
];

/// A run's numbers, and how many events and tasks it has.
#[derive(Clone, PartialEq, Eq, Debug)]
pub struct Figures {
    pub counts: [u64; COUNTS],
    pub events: u64,
    pub tasks: u32,
}

impl Figures {
    pub fn none() -> Figures {
        Figures {
            counts: [0; COUNTS],
            events: 0,
            tasks: 0,
        }
    }

    /// Of the first `many` events of a run.
    pub fn of(run: &Recording, many: usize) -> Figures {
        let mut plain = Plain::fresh(&run.setup);
        let mut figures = Figures {
            tasks: plain.counts().tasks,
            ..Figures::none()
        };
        for five in &run.events[..many] {
            let answer = plain.event(recording::event(*five));
            figures.count(&plain, answer.code);
        }
        figures
    }

    fn count(&mut self, plain: &Plain, code: i32) {
        for id in 1..=self.tasks {
            self.counts[(id as usize - 1) * STATES + state(plain, id)] += 1;
        }
        let place = CODES.iter().position(|c| *c == code);
        self.counts[TASKS * STATES + place.expect("a code of the table")] += 1;
        self.events += 1;
    }

    /// The line of the program `figures`.
    pub fn line(&self) -> String {
        let numbers = self.counts.iter().chain([&self.events]);
        let words: Vec<String> = numbers.map(|n| n.to_string()).collect();
        format!("{} {}\n", words.join(" "), self.tasks)
    }
}

/// As tsk_sts shows it.
pub fn state(plain: &Plain, id: u32) -> usize {
    match plain.task(id).standing {
        Standing::Dormant => 0,
        Standing::Ready if plain.running() == Some(id) => 2,
        Standing::Ready => 1,
        Standing::Wait(_) => 3,
        Standing::Suspend => 4,
        Standing::WaitSuspend(_) => 5,
        Standing::Absent => 6,
    }
}

/// The report of a month.
pub fn report(month: &[Figures]) -> String {
    let mut counts = [0u64; COUNTS];
    for run in month {
        for (sum, n) in counts.iter_mut().zip(run.counts) {
            *sum += n;
        }
    }
    let (states, codes) = counts.split_at(TASKS * STATES);
    let mut text = String::new();
    for row in states.chunks(STATES) {
        let words: Vec<String> = row.iter().map(|n| n.to_string()).collect();
        text += &format!("{}\n", words.join(" "));
    }
    for (code, n) in CODES.iter().zip(codes) {
        text += &format!("{code} {n}\n");
    }
    text
}
