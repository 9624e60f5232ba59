//! Random setups and runs: at each event the same answer, after each event the same cells, running task and state.
use crate::pair::Pair;
use crate::reach::Reached;
use crate::Verdict;
use second::alarms::Alarms;
use second::looks::Looks;
use second::picture::{Picture, Queues, Standing};
use second::plain::{Event, Plain, DEPTH_MOST};
use second::random::Random;
use second::script::{self, Author, Size, SIZES};

const RUNS: u32 = 1200;
const EVENTS: u32 = 500;

#[derive(Default)]
struct Tally {
    reached: Reached,
    events: u64,
    cells: u64,
    pictures: u64,
    released_most: u32,
    longest_ready: usize,
    longest_wait: usize,
    longest_mail: usize,
    deepest: u32,
    corners: [u64; CORNERS.len()],
    looks: Looks,
    alarms: Alarms,
}

/// What runs must meet, most of it with a handler open.
const CORNERS: [&str; 7] = [
    "the interrupted task suspended",
    "the interrupted task behind another",
    "nothing interrupted, but somebody ready",
    "a return to another task",
    "a tick at the greatest depth",
    "a block granted while a lower one was free",
    "a block returned behind another",
];

/// Which of them an event met, by the states before and after it.
fn corners(before: &Plain, event: Event, after: &Plain) -> [bool; CORNERS.len()] {
    let [granted, returned] = blocks(before, event, after);
    let open = after.depth() > 0;
    let (running, best) = (after.running(), after.best());
    let stands = |standing| running.is_some_and(|id| after.task(id).standing == standing);
    let back = before.depth() == 1 && event == Event::Leave;
    [
        open && stands(Standing::Suspend),
        open && stands(Standing::Ready) && running != best,
        open && running.is_none() && best.is_some(),
        back && running != before.running(),
        before.depth() == DEPTH_MOST && event == Event::Tick,
        granted,
        returned,
    ]
}

/// Of a call on a pool: whether a block left the free ones and a lower one stays, and whether one came behind others.
fn blocks(before: &Plain, event: Event, after: &Plain) -> [bool; 2] {
    let Event::Call {
        number: 23..=25, a, ..
    } = event
    else {
        return [false; 2];
    };
    if !(1..=before.counts().pools as i32).contains(&a) {
        return [false; 2];
    }
    let (old, new) = (before.free_blocks(a as u32), after.free_blocks(a as u32));
    let lowest = |queue: &[u32]| queue.iter().min().copied();
    [
        new.len() < old.len() && lowest(&new) < old.first().copied(),
        new.len() > old.len() && !old.is_empty(),
    ]
}

fn longest(queues: &Queues) -> usize {
    queues.iter().map(Vec::len).max().unwrap_or(0)
}

impl Tally {
    fn picture(&mut self, p: &Picture) {
        let [ready, waiters @ ..] = p.task_queues();
        self.pictures += 1;
        self.longest_ready = self.longest_ready.max(longest(ready));
        for kind in waiters {
            self.longest_wait = self.longest_wait.max(longest(kind));
        }
        self.longest_mail = self.longest_mail.max(longest(&p.mail));
    }

    /// Every task's cell, and those of ids that don't exist.
    fn cells(&mut self, pair: &Pair) -> Result<(), String> {
        let tasks = pair.plain.counts().tasks as i32;
        for id in (0..=tasks + 1).chain([-1, i32::MIN, i32::MAX]) {
            let code = pair.same_cell(id)?;
            self.cells += 1;
            if (1..=tasks).contains(&id) {
                self.reached.cell(code);
            }
        }
        Ok(())
    }

    fn event(&mut self, pair: &mut Pair, event: Event) -> Result<(), String> {
        let before = pair.plain.clone();
        let answer = pair.event(event)?;
        self.events += 1;
        self.reached.answer(&before, event, answer.code);
        self.corners(&before, event, &pair.plain);
        self.looks.event(&before, event, &pair.plain, &answer);
        self.alarms.event(&before, event, &pair.plain, answer.code);
        self.released_most = self.released_most.max(answer.released);
        pair.same_running()?;
        self.cells(pair)?;
        pair.same_picture()?;
        self.picture(&pair.plain.picture());
        Ok(())
    }

    fn corners(&mut self, before: &Plain, event: Event, after: &Plain) {
        self.deepest = self.deepest.max(after.depth());
        for (times, met) in self.corners.iter_mut().zip(corners(before, event, after)) {
            *times += u64::from(met);
        }
    }

    /// Queues that no run made long, and corners that none met, would have been tested too little.
    fn deep_enough(&self) -> Result<(), String> {
        let longest = (self.longest_ready, self.longest_wait, self.longest_mail);
        if longest != (32, 32, 256) || self.deepest != DEPTH_MOST {
            return Err(format!(
                "longest ready queue, wait queue and mailbox: {longest:?}; deepest handler {}",
                self.deepest
            ));
        }
        let mut corners = CORNERS.iter().zip(self.corners);
        match corners.find(|(_, times)| *times == 0) {
            None => Ok(()),
            Some((missed, _)) => Err(format!("no run met {missed}")),
        }
    }

    /// How often each corner was met.
    fn corner_lines(&self) -> String {
        let lines = CORNERS.iter().zip(self.corners);
        lines
            .map(|(corner, times)| format!("  {times:8} times {corner}\n"))
            .collect()
    }

    fn run(&mut self, random: &mut Random, size: Size) -> Result<(), String> {
        let mut pair = Pair::fresh(&script::setup(random, size))?;
        let mut author = Author::default();
        for _ in 0..EVENTS {
            let event = author.event(random, &pair.plain);
            self.event(&mut pair, event)?;
        }
        Ok(())
    }
}

pub fn check() -> Verdict {
    let mut tally = Tally::default();
    for seed in 0..RUNS {
        let size = SIZES[seed as usize % SIZES.len()];
        tally
            .run(&mut Random::new(u64::from(seed)), size)
            .map_err(|d| format!("seed {seed}: {d}"))?;
    }
    let table = tally.reached.table()?;
    let looks = tally.looks.lines()?;
    let alarms = tally.alarms.lines()?;
    tally.deep_enough()?;
    Ok(format!(
        "{RUNS} runs, {} events, {} cells, {} states\n  longest queues: ready {}, waiters {}, messages {}; most released at once {}; handlers {} deep\n{}{looks}{alarms}{table}",
        tally.events,
        tally.cells,
        tally.pictures,
        tally.longest_ready,
        tally.longest_wait,
        tally.longest_mail,
        tally.released_most,
        tally.deepest,
        tally.corner_lines()
    ))
}
