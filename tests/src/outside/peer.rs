//! The peer in C, which the benchmark sets beside the proved kernel: at each event the plain kernel's answer, with and without its check,
//! and after each event the plain kernel's cells; the papers' cases; and setups refused as the second reader refuses them.
use crate::reach::Reached;
use crate::Verdict;
use second::alarms::Alarms;
use second::cases::{self, Bench};
use second::looks::Looks;
use second::peer::Peer;
use second::plain::{Answer, Event, Plain};
use second::random::Random;
use second::recording;
use second::script::{self, Author, SIZES};
use second::setup::{self, Setup};
use second::sizes;

const RUNS: u64 = 2000;
const RUNS_OF_A_SIZE: u64 = 300;
const EVENTS: u64 = 500;
const SETUPS: u64 = 400;

struct Both {
    plain: Plain,
    trusting: Peer,
    checking: Peer,
}

impl Both {
    fn fresh(setup: &Setup) -> Result<Both, String> {
        let started = Peer::start(&setup::bytes(setup));
        let peer = started.map_err(|fault| format!("{setup:?} refused: {fault:?}"))?;
        Ok(Both {
            plain: Plain::fresh(setup),
            trusting: peer.clone(),
            checking: peer,
        })
    }

    fn same_cells(&self) -> Result<(), String> {
        let tasks = self.plain.counts().tasks as i32;
        let differs = |id: &i32| self.plain.cell(*id) != self.checking.cell(*id);
        match (-1..=tasks + 1).find(differs) {
            Some(id) => Err(format!("the cell of {id} differs")),
            None => Ok(()),
        }
    }
}

impl Bench for Both {
    fn event(&mut self, event: Event) -> Result<Answer, String> {
        let five = recording::words(event);
        let plain = self.plain.event(recording::event(five));
        let peers = [
            self.trusting.event(&five),
            self.checking.checked_event(&five),
        ];
        if peers.iter().any(|answer| *answer != plain) {
            return Err(format!("{event:?}: {plain:?}, the peer {peers:?}"));
        }
        self.same_cells()?;
        Ok(plain)
    }

    fn running(&self) -> Result<u32, String> {
        Ok(self.checking.running())
    }

    fn cell(&self, task: i32) -> Result<(i32, u32), String> {
        Ok(self.checking.cell(task))
    }
}

/// What the runs met, and how many events were alike.
#[derive(Default)]
struct Tally {
    events: u64,
    reached: Reached,
    looks: Looks,
    alarms: Alarms,
}

impl Tally {
    fn event(&mut self, both: &mut Both, event: Event) -> Result<(), String> {
        let before = both.plain.clone();
        let answer = both.event(event)?;
        self.events += 1;
        self.reached.answer(&before, event, answer.code);
        self.looks.event(&before, event, &both.plain, &answer);
        self.alarms.event(&before, event, &both.plain, answer.code);
        for id in 1..=both.plain.counts().tasks as i32 {
            self.reached.cell(both.checking.cell(id).0);
        }
        Ok(())
    }

    fn run(&mut self, seed: u64, setup: &Setup) -> Result<(), String> {
        let random = &mut Random::new(seed);
        let mut both = Both::fresh(setup)?;
        let mut author = Author::default();
        for at in 0..EVENTS {
            // a context of 2 to 4 is read as a tick, an entry or a return
            let event = recording::event(recording::words(author.event(random, &both.plain)));
            self.event(&mut both, event)
                .map_err(|difference| format!("seed {seed}, event {at}: {difference}"))?;
        }
        Ok(())
    }

    /// Runs that miss an answer tested too little.
    fn met_all(&self) -> Result<(), String> {
        self.reached.table()?;
        self.looks.lines()?;
        self.alarms.lines()?;
        Ok(())
    }
}

/// Every cut of a setup's bytes, a byte more, and each word changed.
fn refuse(random: &mut Random, setup: &Setup) -> Result<usize, String> {
    let bytes = setup::bytes(setup);
    let mut inputs: Vec<Vec<u8>> = (0..bytes.len()).map(|end| bytes[..end].to_vec()).collect();
    for at in (0..bytes.len()).step_by(4) {
        let mut changed = bytes.clone();
        let word = random.pick(&[0, 1, 2, 9, 17, 33, 257, 65535, 65536, u32::MAX]);
        changed[at..at + 4].copy_from_slice(&word.to_le_bytes());
        inputs.push(changed);
    }
    inputs.push([&bytes[..], &[0]].concat());
    for input in &inputs {
        let (peer, second) = (Peer::start(input).err(), setup::read(input).err());
        if peer != second {
            return Err(format!("{input:?}: {second:?}, the peer {peer:?}"));
        }
    }
    Ok(inputs.len())
}

fn drawn(seed: u64) -> Setup {
    script::setup(&mut Random::new(seed), SIZES[seed as usize % SIZES.len()])
}

pub fn check() -> Verdict {
    let cases = cases::check(Both::fresh)?;
    let mut random = Tally::default();
    for seed in 0..RUNS {
        random.run(seed, &drawn(seed))?;
    }
    random.met_all()?;
    let mut sized = Tally::default();
    for setup in [sizes::small(), sizes::middle(), sizes::large()] {
        for seed in 0..RUNS_OF_A_SIZE {
            sized.run(seed, &setup)?;
        }
    }
    let mut setups = 0;
    for seed in 0..SETUPS {
        setups += refuse(&mut Random::new(seed), &drawn(seed))?;
    }
    Ok(format!(
        "{} events on random setups and {} on those of the benchmark, {cases} cases, {setups} setups",
        random.events, sized.events
    ))
}
