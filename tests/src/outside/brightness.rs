//! Request K14: the curve at every lux, bad curves, slots, and lights over random runs with messages.
use crate::pair::Pair;
use crate::Verdict;
use okrozumba::brightness::{BadPoint, Curve, Light, News, POINTS};
use second::curve::{self, Points};
use second::plain::{Event, Plain, E_RLWAI};
use second::random::Random;
use second::script::Author;
use second::setup::Setup;

const CURVES: u64 = 160;
const BEYOND: [u32; 5] = [65536, 65537, 1 << 20, 1 << 31, u32::MAX];
const RUNS: u64 = 1200;
const TURNS: u32 = 600;
const MAILBOXES: u32 = 2;

/// The points behind the count are drawn, too: they don't count.
fn of(random: &mut Random, points: &Points) -> Curve {
    let mut curve = Curve::of(&points.0);
    for i in points.0.len()..POINTS {
        (curve.lux[i], curve.level[i]) = (random.word(), random.word());
    }
    curve
}

fn news(told: Result<News, BadPoint>) -> Result<curve::News, u32> {
    match told {
        Ok(News::Set) => Ok(curve::News::Set),
        Ok(News::Waits) => Ok(curve::News::Waits),
        Ok(News::Stays) => Ok(curve::News::Stays),
        Ok(News::NoSlot) => Ok(curve::News::NoSlot),
        Err(BadPoint(point)) => Err(point),
    }
}

fn same<T: PartialEq + std::fmt::Debug>(what: &str, ours: T, seconds: T) -> Result<(), String> {
    if ours == seconds {
        Ok(())
    } else {
        Err(format!(
            "{what}\n  archive: {ours:?}\n  second:  {seconds:?}"
        ))
    }
}

// ---- levels

/// Every lux on a good curve: the second's level, and never a lower one than before. Gives how many.
fn every_lux(random: &mut Random, count: usize) -> Result<u64, String> {
    let points = &Points::good(random, count);
    let curve = of(random, points);
    same("a good curve", curve.judge(), Ok(()))?;
    let mut last = 0;
    for lux in (0..=65535).chain(BEYOND) {
        let level = curve.level(lux);
        if level != Ok(points.level(lux)) {
            return Err(format!(
                "{points:?} at {lux}: {level:?}, not {}",
                points.level(lux)
            ));
        }
        if points.level(lux) < last {
            return Err(format!("{points:?} at {lux}: lower"));
        }
        last = points.level(lux);
    }
    Ok(65536 + BEYOND.len() as u64)
}

// ---- bad curves

/// A number of a good curve replaced by another, in turn; most make it bad. Gives how many were bad.
fn one_number(random: &mut Random, count: usize) -> Result<u64, String> {
    let points = Points::good(random, count);
    let mut bad = 0;
    for i in 0..count {
        let (x, y) = points.0[i];
        let (before, behind) = (
            points.0[i.saturating_sub(1)],
            points.0[(i + 1).min(count - 1)],
        );
        let luxes = [
            0,
            x.wrapping_sub(1),
            x + 1,
            before.0,
            behind.0,
            65535,
            65536,
            u32::MAX,
        ];
        let levels = [
            0,
            y.wrapping_sub(1),
            y + 1,
            before.1,
            behind.1,
            255,
            256,
            u32::MAX,
        ];
        let changed = luxes
            .map(|lux| (lux, y))
            .into_iter()
            .chain(levels.map(|level| (x, level)));
        for point in changed {
            let mut points = points.clone();
            points.0[i] = point;
            let curve = of(random, &points);
            let judged = curve.judge().map_err(|BadPoint(point)| point);
            same(&format!("{points:?}"), judged, points.judge())?;
            if let Err(point) = judged {
                bad += 1;
                same("level", curve.level(random.word()), Err(BadPoint(point)))?;
                same("first light", Light::first(&curve), Err(BadPoint(point)))?;
            }
        }
    }
    let mut curve = of(random, &points);
    for wrong in [0, 17, 18, 32, 1 << 31, u32::MAX] {
        curve.count = wrong;
        same("a bad count", curve.judge(), Err(BadPoint(0)))?;
        bad += 1;
    }
    Ok(bad)
}

// ---- slots

/// Every message number on slots of a length, with every kind of code. Gives how many were taken.
fn slots(random: &mut Random, length: u32) -> Result<u64, String> {
    let points = Points::good(random, 5);
    let curve = of(random, &points);
    let slots: Vec<u32> = (0..length).map(|_| random.below(70_000)).collect();
    let begun = curve::Light {
        level: random.word(),
        waits: random.word(),
    };
    let mut taken = 0;
    for word in (0..=length + 3).chain([256, 257, 300, 301, 1 << 31, u32::MAX]) {
        for code in [0, 1, -1, 2, E_RLWAI, -3413, -20, i32::MIN, i32::MAX] {
            let mut ours = Light {
                level: begun.level,
                waits: begun.waits,
            };
            let mut seconds = begun;
            let told = news(ours.take(&curve, &slots, code, word));
            let wanted = seconds.take(&points, &slots, code, word);
            let what = format!("{length} slots, code {code}, word {word}");
            same(
                &what,
                (told, ours.level, ours.waits),
                (wanted, seconds.level, seconds.waits),
            )?;
            taken += u64::from(told == Ok(curve::News::Set));
        }
    }
    Ok(taken)
}

// ---- runs

#[derive(Default)]
struct Tally {
    turns: u64,
    at_once: u64,
    at_release: u64,
    zero_lux: u64,
    broken: u64,
    no_slot: u64,
    refused: u64,
    bad: u64,
}

impl Tally {
    /// What no run met would have been tested too little.
    fn all(&self) -> Result<String, String> {
        let met = [
            (self.at_once, "readings at once"),
            (self.at_release, "at release"),
            (self.zero_lux, "of zero lux"),
            (self.broken, "waits broken off"),
            (self.no_slot, "numbers without a slot"),
            (self.refused, "calls refused"),
            (self.bad, "bad curves"),
        ];
        match met.iter().find(|(times, _)| *times == 0) {
            Some((_, missed)) => Err(format!("no {missed}")),
            None => Ok(met
                .map(|(times, what)| format!("{times} {what}"))
                .join(", ")),
        }
    }
}

struct Run<'a> {
    pair: Pair,
    good: Points,
    bad: Points,
    slots: Vec<u32>,
    ours: Light,
    seconds: curve::Light,
    tally: &'a mut Tally,
}

impl Run<'_> {
    fn tell(
        &mut self,
        told: Result<News, BadPoint>,
        wanted: Result<curve::News, u32>,
    ) -> Result<curve::News, String> {
        let (ours, seconds) = (self.ours, self.seconds);
        same(
            "light",
            (news(told), ours.level, ours.waits),
            (wanted, seconds.level, seconds.waits),
        )?;
        if news(told).is_err() {
            self.tally.bad += 1;
        }
        Ok(wanted.unwrap_or(curve::News::Stays))
    }

    /// The running task asks; now and then by a bad curve.
    fn receive(&mut self, random: &mut Random) -> Result<(), String> {
        let mailbox = random.within(0, MAILBOXES) as i32;
        let points = if random.percent(5) {
            self.bad.clone()
        } else {
            self.good.clone()
        };
        let curve = of(random, &points);
        let before = self.ours.level;
        let told = self
            .pair
            .kernel
            .receive(&curve, &self.slots, &mut self.ours, mailbox);
        let plain = &mut self.pair.plain;
        let wanted = self.seconds.receive(plain, &points, &self.slots, mailbox);
        match self.tell(told, wanted)? {
            curve::News::Set => self.tally.at_once += 1,
            curve::News::NoSlot => self.tally.no_slot += 1,
            _ => same("a level without a reading", self.ours.level, before)?,
        }
        self.tally.refused += u64::from(told == Ok(News::Stays));
        self.pair.same_picture()
    }

    fn resumed(&mut self, random: &mut Random) -> Result<(), String> {
        let points = if random.percent(5) {
            self.bad.clone()
        } else {
            self.good.clone()
        };
        let curve = of(random, &points);
        let (before, waits) = (self.ours.level, self.ours.waits);
        let told = self
            .pair
            .kernel
            .resumed(&curve, &self.slots, &mut self.ours);
        let wanted = self.seconds.resumed(&self.pair.plain, &points, &self.slots);
        let (code, word) = self.pair.plain.cell(waits as i32);
        match self.tell(told, wanted)? {
            curve::News::Set => {
                self.tally.at_release += 1;
                self.tally.zero_lux += u64::from(self.slots[word as usize - 1] == 0);
            }
            curve::News::NoSlot => self.tally.no_slot += 1,
            _ => {
                same("a level without a reading", self.ours.level, before)?;
                self.tally.broken += u64::from(told == Ok(News::Stays) && code == E_RLWAI);
            }
        }
        Ok(())
    }

    /// rel_wai on the task that waits, by whoever runs or by a handler.
    fn break_off(&mut self) -> Result<(), String> {
        let context = i32::from(self.pair.plain.depth() > 0);
        let event = Event::Call {
            context,
            number: 6,
            a: self.ours.waits as i32,
            b: 0,
            c: 0,
        };
        self.pair.event(event).map(drop)
    }

    fn turn(&mut self, random: &mut Random, author: &mut Author) -> Result<(), String> {
        self.tally.turns += 1;
        if self.pair.plain.depth() > 0 && random.percent(40) {
            return self.pair.event(Event::Leave).map(drop);
        }
        match random.below(20) {
            0..=4 => self.receive(random),
            5..=10 => self.resumed(random),
            11 => self.break_off(),
            12..=16 => self.pair.event(sends(random, &self.pair.plain)).map(drop),
            _ => {
                let event = author.event(random, &self.pair.plain);
                self.pair.event(event).map(drop)
            }
        }
    }
}

/// snd_msg, from a handler if one is open.
fn sends(random: &mut Random, plain: &Plain) -> Event {
    Event::Call {
        context: i32::from(plain.depth() > 0),
        number: 20,
        a: random.within(1, MAILBOXES) as i32,
        b: random.within(1, plain.counts().messages) as i32,
        c: 0,
    }
}

fn run(tally: &mut Tally, seed: u64) -> Result<(), String> {
    let random = &mut Random::new(seed);
    let setup = Setup {
        priorities: 2,
        tasks: (0..random.within(2, 5))
            .map(|_| (random.within(1, 2), random.percent(90)))
            .collect(),
        semaphores: vec![0],
        flags: vec![0],
        mailboxes: MAILBOXES,
        messages: random.within(8, 12),
        pools: vec![2],
        counter: None,
    };
    let count = random.within(1, 16) as usize;
    let good = Points::good(random, count);
    let mut bad = good.clone();
    bad.0[count - 1].1 = 256;
    let slots: Vec<u32> = (0..random.within(4, 9))
        .map(|_| random.pick(&[0, 1, 500, 9000, 65535, 70_000]))
        .collect();
    let seconds = curve::Light::first(&good).map_err(|p| format!("bad at {p}"))?;
    let first = Light::first(&of(random, &good)).map_err(|bad| format!("{bad:?}"))?;
    same(
        "first light",
        (first.level, first.waits),
        (seconds.level, seconds.waits),
    )?;
    let mut run = Run {
        pair: Pair::fresh(&setup)?,
        good,
        bad,
        slots,
        ours: first,
        seconds,
        tally,
    };
    let mut author = Author::default();
    for _ in 0..TURNS {
        run.turn(random, &mut author)?;
    }
    Ok(())
}

pub fn check() -> Verdict {
    let (mut levels, mut bad, mut taken) = (0, 0, 0);
    for seed in 0..CURVES {
        let random = &mut Random::new(seed);
        let count = 1 + seed as usize % POINTS;
        levels += every_lux(random, count).map_err(|d| format!("seed {seed}: {d}"))?;
        bad += one_number(random, count).map_err(|d| format!("seed {seed}: {d}"))?;
    }
    for length in [0, 1, 2, 255, 256, 257, 300] {
        taken += slots(&mut Random::new(u64::from(length)), length)?;
    }
    let mut tally = Tally::default();
    for seed in 0..RUNS {
        run(&mut tally, seed).map_err(|d| format!("seed {seed}: {d}"))?;
    }
    Ok(format!(
        "{CURVES} curves at {levels} lux, {bad} bad ones, {taken} slots read; {RUNS} runs, {} turns: {}",
        tally.turns,
        tally.all()?
    ))
}
