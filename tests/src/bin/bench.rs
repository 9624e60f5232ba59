//! How fast the proved kernel is, beside the unproved ones, `rings` and the peer in C: `cargo run --profile bench --bin bench`. It is no
//! part of the gate.
//!
//! Each row sets two sides beside each other in one run: they take turns, round after round, each from the same state over the same events,
//! and the quickest round of each counts. Two kernels must have answered alike. With two words, a side (events, calls, rings,
//! checked, c, checkedc) and a setup (small, middle, large), that side alone plays the mixed events once, for a profiler; with `blocks`
//! as the second word, the grants and returns on large, with `ticks` and `timed` ticks over 32 tasks of which none or all are timed.
use okrozumba::brightness::Curve;
use okrozumba::recorder::Recorder;
use okrozumba::{Answer, State};
use second::peer::Peer;
use second::plain::{names_task, ALM_STS, CALLS, CRE_TSK, SET_ABS};
use second::random::Random;
use second::rings::Kernel;
use second::setup::{self, Setup, ALARMS};
use second::sizes::{counted, large, middle, small, with_tasks};
use std::fmt::Write;
use std::time::Instant;

const ROUNDS: u32 = 31;
const TEXT_ROUNDS: u32 = 7;
const MIXED: usize = 20_000;
const LONG: usize = 1_000_000;
/// The size of a counter that no round of ticks goes through.
const ROUND_MOST: u32 = 65535;

// ---- events

type Five = [i32; 5];
/// In place of a call, behind the last.
const TICK: i32 = CALLS + 1;

/// Mostly one of 1 to n.
fn id(random: &mut Random, n: u32) -> i32 {
    if random.percent(3) {
        random.below(n + 3) as i32 - 1
    } else {
        random.within(1, n) as i32
    }
}

/// Every call is as likely as the other, and the tick too; half of the calls are a handler's.
fn any(random: &mut Random, s: &Setup) -> Five {
    let number = random.within(1, TICK as u32) as i32;
    let (tasks, objects, pools) = (s.tasks.len() as u32, s.mailboxes, s.pools.len() as u32);
    let a = match number {
        _ if names_task(number) => id(random, tasks),
        5 => random.below(s.priorities + 1) as i32,
        10 => random.below(12) as i32 - 1,
        23 | 24 | 25 | 31 => id(random, pools),
        SET_ABS..=ALM_STS => id(random, ALARMS as u32),
        _ => id(random, objects),
    };
    let b = match number {
        4 | CRE_TSK => id(random, s.priorities),
        16 => 1 << random.below(6),
        20 => id(random, s.messages),
        25 => id(random, s.pools[0]),
        _ => random.within(1, 63) as i32,
    };
    match number {
        TICK => [2, 0, 0, 0, 0],
        _ => [random.below(2) as i32, number, a, b, random.below(4) as i32],
    }
}

/// A handler's call is entry, call, return.
fn whole(event: Five) -> Vec<Five> {
    match event[0] {
        1 => vec![[3, 0, 0, 0, 0], event, [4, 0, 0, 0, 0]],
        _ => vec![event],
    }
}

/// Whether all are served and a task runs after them.
fn suit(mut kernel: Kernel, events: &[Five]) -> bool {
    let answers: Vec<Answer> = events.iter().map(|event| kernel.event(event)).collect();
    let served = answers.iter().all(|answer| answer.code >= 0);
    served && answers.last().is_some_and(|last| last.running != 0)
}

/// Random events. One that would be refused, or leave no task running, is mostly drawn again.
fn mixed(s: &Setup, many: usize) -> Vec<i32> {
    let random = &mut Random::new(1);
    let mut kernel = rings(s);
    let mut events = Vec::with_capacity(many + 2);
    while events.len() < many {
        let mut drawn = whole(any(random, s));
        for _ in 0..random.below(12) {
            if suit(kernel.clone(), &drawn) {
                break;
            }
            drawn = whole(any(random, s));
        }
        for event in &drawn {
            kernel.event(event);
        }
        events.extend(drawn);
    }
    events.truncate(many);
    events.concat()
}

fn repeated(cycle: &[Five], many: usize) -> Vec<i32> {
    cycle.iter().cycle().take(many).flatten().copied().collect()
}

/// Two calls that leave the state as it was, whatever tasks and messages there are: sig_sem and preq_sem.
fn pair_of_calls() -> Vec<i32> {
    repeated(&[[0, 13, 1, 0, 0], [0, 15, 1, 0, 0]], MIXED)
}

/// A block granted and returned: it goes through its pool's queue.
fn pair_of_blocks() -> Vec<i32> {
    let returned = |k| [[0, 24, 1, 0, 0], [0, 25, 1, k, 0]];
    let round: Vec<Five> = (1..=32).flat_map(returned).collect();
    repeated(&round, MIXED)
}

fn only_ticks() -> Vec<i32> {
    repeated(&[[2, 0, 0, 0, 0]], MIXED)
}

/// Each of 32 tasks sleeps.
fn all_asleep() -> Vec<i32> {
    repeated(&[[0, 9, 0, 0, 0]], 32)
}

/// Each of 32 tasks waits for as long as it may.
fn all_timed() -> Vec<i32> {
    repeated(&[[0, 10, i32::MAX, 0, 0]], 32)
}

/// A message in each of its places.
fn all_messages_sent() -> Vec<i32> {
    (1..=256).flat_map(|j| [0, 20, 1 + j % 16, j, 0]).collect()
}

// ---- sides

#[derive(PartialEq)]
struct Answers {
    codes: Vec<i32>,
    words: Vec<u32>,
}

impl Answers {
    fn of(events: &[i32]) -> Answers {
        Answers {
            codes: vec![0; events.len() / 5],
            words: vec![0; events.len() / 5 * 4],
        }
    }

    /// Every event's answer is written where `State::events` writes it.
    fn each(&mut self, events: &[i32], mut one: impl FnMut(&Five) -> Answer) {
        let (events, _) = events.as_chunks::<5>();
        let (words, _) = self.words.as_chunks_mut::<4>();
        for ((event, code), words) in events.iter().zip(&mut self.codes).zip(words) {
            let r = one(event);
            *code = r.code;
            *words = [r.w1, r.w2, r.running, r.released];
        }
    }
}

/// A kernel with a way to play events. Not inlined, so that a profiler finds it by name.
trait Side: Clone {
    fn play(&mut self, events: &[i32], to: &mut Answers);
}

#[derive(Clone)]
struct Events(State);

impl Side for Events {
    #[inline(never)]
    fn play(&mut self, events: &[i32], to: &mut Answers) {
        self.0
            .events(events, &mut to.codes, &mut to.words)
            .expect("places for the answers");
    }
}

#[derive(Clone)]
struct Calls(State);

impl Side for Calls {
    #[inline(never)]
    fn play(&mut self, events: &[i32], to: &mut Answers) {
        to.each(events, |&[kind, number, a, b, c]| match kind {
            2 => self.0.tick(),
            3 => self.0.enter(),
            4 => self.0.leave(),
            _ => self.0.call(kind, number, a, b, c),
        });
    }
}

#[derive(Clone)]
struct Unchecked(Kernel);

impl Side for Unchecked {
    #[inline(never)]
    fn play(&mut self, events: &[i32], to: &mut Answers) {
        to.each(events, |event| self.0.event(event));
    }
}

#[derive(Clone)]
struct Checked(Kernel);

impl Side for Checked {
    #[inline(never)]
    fn play(&mut self, events: &[i32], to: &mut Answers) {
        to.each(events, |event| self.0.checked_event(event));
    }
}

/// The kernel in C, all events by one call as the archive's `events`.
#[derive(Clone)]
struct C(Peer);

impl Side for C {
    #[inline(never)]
    fn play(&mut self, events: &[i32], to: &mut Answers) {
        self.0.events(events, &mut to.codes, &mut to.words);
    }
}

#[derive(Clone)]
struct CheckedC(Peer);

impl Side for CheckedC {
    #[inline(never)]
    fn play(&mut self, events: &[i32], to: &mut Answers) {
        self.0.checked_events(events, &mut to.codes, &mut to.words);
    }
}

fn proved(s: &Setup) -> State {
    State::start(&setup::bytes(s)).expect("a setup without a fault")
}

fn rings(s: &Setup) -> Kernel {
    Kernel::start(&setup::bytes(s)).expect("a setup without a fault")
}

fn c(s: &Setup) -> Peer {
    Peer::start(&setup::bytes(s)).expect("a setup without a fault")
}

/// The side after some events.
fn after<S: Side>(mut side: S, events: &[i32]) -> S {
    side.play(events, &mut Answers::of(events));
    side
}

// ---- measuring

/// ns for each event of one round.
fn round<S: Side>(side: &S, events: &[i32], to: &mut Answers) -> f64 {
    let mut side = side.clone();
    let begun = Instant::now();
    side.play(events, to);
    begun.elapsed().as_nanos() as f64 / to.codes.len() as f64
}

/// Prints a row: the two sides, each over its events. Gives what they answered.
fn row<A: Side, B: Side>(what: &str, a: (A, &[i32]), b: (B, &[i32])) -> [Answers; 2] {
    let (mut to_a, mut to_b) = (Answers::of(a.1), Answers::of(b.1));
    let (mut quickest_a, mut quickest_b) = (f64::MAX, f64::MAX);
    for _ in 0..ROUNDS {
        quickest_a = quickest_a.min(round(&a.0, a.1, &mut to_a));
        quickest_b = quickest_b.min(round(&b.0, b.1, &mut to_b));
    }
    let ratio = quickest_a / quickest_b;
    println!("| {what} | {quickest_a:.1} | {quickest_b:.1} | {ratio:.2} |");
    [to_a, to_b]
}

/// The same of two sides that must answer alike.
fn row_alike<A: Side, B: Side>(what: &str, a: A, b: B, events: &[i32]) {
    let [to_a, to_b] = row(what, (a, events), (b, events));
    assert!(to_a == to_b, "the answers differ");
}

/// Both unproved kernels over such events: without their checks beside `events`, with them beside single calls.
fn against_peers(what: &str, s: &Setup, events: &[i32]) {
    let (batch, single) = (Events(proved(s)), Calls(proved(s)));
    let (by_events, by_call) = (format!("`events`, {what}"), format!("`call`, {what}"));
    row_alike(
        &format!("{by_events} / rings"),
        batch.clone(),
        Unchecked(rings(s)),
        events,
    );
    row_alike(&format!("{by_events} / C"), batch, C(c(s)), events);
    row_alike(
        &format!("{by_call} / checked rings"),
        single.clone(),
        Checked(rings(s)),
        events,
    );
    row_alike(
        &format!("{by_call} / checked C"),
        single,
        CheckedC(c(s)),
        events,
    );
}

fn mixed_events(name: &str, s: &Setup) {
    against_peers(&format!("mixed, {name}"), s, &mixed(s, MIXED));
}

/// A grant and a return.
fn blocks() {
    against_peers("pget_blk and rel_blk, large", &large(), &pair_of_blocks());
}

/// From few to many of what the kernel holds, in `events` and by single calls.
fn growth(what: &str, many: &State, few: &State) {
    let events = &pair_of_calls();
    row(
        &format!("`events`, {what}"),
        (Events(many.clone()), events),
        (Events(few.clone()), events),
    );
    row(
        &format!("`call`, {what}"),
        (Calls(many.clone()), events),
        (Calls(few.clone()), events),
    );
}

fn ticks() {
    let s = &with_tasks(32);
    let (events, asleep, timed) = (&only_ticks(), &all_asleep(), &all_timed());
    let none = after(Events(proved(s)), asleep);
    let all = after(Events(proved(s)), timed);
    row(
        "tick in `events`, 32 timed waits / none",
        (all.clone(), events),
        (none.clone(), events),
    );
    for (what, side, before) in [("none timed", none, asleep), ("32 timed waits", all, timed)] {
        row_alike(
            &format!("tick in `events`, {what} / rings"),
            side.clone(),
            after(Unchecked(rings(s)), before),
            events,
        );
        row_alike(
            &format!("tick in `events`, {what} / C"),
            side,
            after(C(c(s)), before),
            events,
        );
    }
}

/// A tick with alarms, from all tasks asleep.
fn alarms() {
    let (s, counter) = (&with_tasks(32), &counted(ROUND_MOST, with_tasks(32)));
    let events = &repeated(&[[2, 0, 0, 0, 0]], MIXED);
    let asleep = repeated(&[[0, 9, 0, 0, 0]], 31);
    // by the last task, which sleeps then
    let set = |count, period| {
        let set = (1..=ALARMS as i32).flat_map(|i| [0, 37, i, count, period]);
        [&asleep[..], &set.collect::<Vec<i32>>(), &[0, 9, 0, 0, 0]].concat()
    };
    let (far, each) = (&set(ROUND_MOST as i32, 0), &set(1, 1));
    let none = after(Events(proved(s)), &asleep);
    let idle = after(Events(proved(counter)), &asleep);
    let waiting = after(Events(proved(counter)), far);
    let firing = after(Events(proved(counter)), each);
    row(
        "tick in `events`, eight idle alarms / no counter",
        (idle, events),
        (none.clone(), events),
    );
    row(
        "tick in `events`, eight alarms set / no counter",
        (waiting.clone(), events),
        (none.clone(), events),
    );
    row(
        "tick in `events`, eight alarms fire / no counter",
        (firing.clone(), events),
        (none.clone(), events),
    );
    row(
        "`tick`, eight alarms set / no counter",
        (Calls(waiting.0.clone()), events),
        (Calls(none.0), events),
    );
    for (what, side, before) in [
        ("eight alarms set", waiting, far),
        ("eight alarms fire", firing, each),
    ] {
        row_alike(
            &format!("tick in `events`, {what} / rings"),
            side.clone(),
            after(Unchecked(rings(counter)), before),
            events,
        );
        row_alike(
            &format!("tick in `events`, {what} / C"),
            side,
            after(C(c(counter)), before),
            events,
        );
    }
}

/// A start and a million events: both sides from the setup's bytes.
fn long_run() {
    let s = &large();
    let bytes = &setup::bytes(s);
    let events = &mixed(s, LONG);

    #[derive(Clone)]
    struct Run<'a>(State, &'a [u8]);
    impl Side for Run<'_> {
        fn play(&mut self, events: &[i32], to: &mut Answers) {
            self.0
                .run(self.1, events, &mut to.codes, &mut to.words)
                .expect("a run");
        }
    }
    #[derive(Clone)]
    struct Start<'a>(&'a [u8]);
    impl Side for Start<'_> {
        fn play(&mut self, events: &[i32], to: &mut Answers) {
            let mut kernel = Kernel::start(self.0).expect("a setup without a fault");
            to.each(events, |event| kernel.event(event));
        }
    }
    #[derive(Clone)]
    struct StartC<'a>(&'a [u8]);
    impl Side for StartC<'_> {
        fn play(&mut self, events: &[i32], to: &mut Answers) {
            let mut kernel = Peer::start(self.0).expect("a setup without a fault");
            kernel.events(events, &mut to.codes, &mut to.words);
        }
    }
    let run = Run(proved(s), bytes);
    row_alike(
        "`run`, 1,000,000 mixed, large / rings",
        run.clone(),
        Start(bytes),
        events,
    );
    row_alike(
        "`run`, 1,000,000 mixed, large / C",
        run,
        StartC(bytes),
        events,
    );
}

// ---- levels

/// Judged and looked up as the archive does it, by hand and not proved.
#[inline(never)]
fn level_by_hand(curve: &Curve, lux: u32) -> Option<u32> {
    let count = curve.count as usize;
    let (luxes, levels) = (curve.lux.get(..count)?, curve.level.get(..count)?);
    let in_range = |i: usize| luxes[i] <= 65535 && levels[i] <= 255;
    let rises = |i: usize| luxes[i - 1] < luxes[i] && levels[i - 1] <= levels[i];
    if count == 0 || !(0..count).all(in_range) || !(1..count).all(rises) {
        return None;
    }
    let above = luxes.iter().position(|&u| lux < u).unwrap_or(count);
    if above == 0 || above == count {
        return Some(levels[above.saturating_sub(1)]);
    }
    let (x, y) = (luxes[above - 1], levels[above - 1]);
    Some(y + (lux - x) * (levels[above] - y) / (luxes[above] - x))
}

/// ns for each of all lux, and the sum of the levels.
fn all_lux(level: impl Fn(u32) -> Option<u32>) -> (f64, u64) {
    let begun = Instant::now();
    let sum = (0..=65535)
        .map(|lux| u64::from(level(lux).expect("a good curve")))
        .sum();
    (begun.elapsed().as_nanos() as f64 / 65536.0, sum)
}

/// A curve with as many points as there can be, at every lux.
fn levels() {
    let points: Vec<(u32, u32)> = (0..16).map(|i| (i * i * 280, i * 17)).collect();
    let curve = &Curve::of(&points);
    let (mut ours, mut by_hand) = ((f64::MAX, 0), (f64::MAX, 0));
    for _ in 0..ROUNDS {
        let (a, b) = (
            all_lux(|lux| curve.level(lux).ok()),
            all_lux(|lux| level_by_hand(curve, lux)),
        );
        assert!(a.1 == b.1, "the levels differ");
        ours = if a.0 < ours.0 { a } else { ours };
        by_hand = if b.0 < by_hand.0 { b } else { by_hand };
    }
    let ratio = ours.0 / by_hand.0;
    println!(
        "| a level, 16 points / by hand | {:.1} | {:.1} | {ratio:.2} |",
        ours.0, by_hand.0
    );
}

/// The text of a recorded run by the recorder.
fn recorded(file: &[u8], text: &mut Vec<u8>) {
    let mut recorder = Recorder::new();
    recorder.take(file, text).expect("a vector takes all");
    recorder.finish(text).expect("a vector takes all");
}

/// The same by rings and the library's own numbers.
fn ringed(s: &Setup, events: &[i32], text: &mut String) {
    let mut kernel = rings(s);
    let (events, _) = events.as_chunks::<5>();
    for (number, event) in (1..).zip(events) {
        let Answer {
            code,
            w1,
            w2,
            running,
            released,
        } = kernel.event(event);
        writeln!(text, "{number} {code} {w1} {w2} {running} {released}")
            .expect("a string takes all");
    }
}

fn seconds(work: impl FnOnce()) -> f64 {
    let begun = Instant::now();
    work();
    begun.elapsed().as_secs_f64()
}

/// The text of a million events: both sides from the words to the text, and how many bytes of the file a second.
fn texts() {
    let s = &large();
    let events = &mixed(s, LONG);
    let words = events.iter().map(|word| *word as u32);
    let rest = setup::bytes_of([LONG as u32].into_iter().chain(words));
    let file = &[setup::bytes(s), rest].concat();
    let (mut quickest_a, mut quickest_b) = (f64::MAX, f64::MAX);
    for _ in 0..TEXT_ROUNDS {
        let (mut a, mut b) = (Vec::new(), String::new());
        quickest_a = quickest_a.min(seconds(|| recorded(file, &mut a)));
        quickest_b = quickest_b.min(seconds(|| ringed(s, events, &mut b)));
        assert!(a.ends_with(b.as_bytes()), "the texts differ");
    }
    let each = |seconds: f64| seconds * 1e9 / LONG as f64;
    let (a, b, ratio) = (each(quickest_a), each(quickest_b), quickest_a / quickest_b);
    println!("| text of 1,000,000 mixed, large / rings | {a:.1} | {b:.1} | {ratio:.2} |");
    let speed = file.len() as f64 / quickest_a / 1e6;
    println!("\nThe recorder takes {speed:.0} million bytes a second.");
}

fn profiled(side: &str, name: &str) {
    let s = &match name {
        "small" => small(),
        "middle" => middle(),
        "ticks" | "timed" => with_tasks(32),
        _ => large(),
    };
    let before = &match name {
        "ticks" => all_asleep(),
        "timed" => all_timed(),
        _ => Vec::new(),
    };
    let events = &match name {
        "blocks" => pair_of_blocks(),
        "ticks" | "timed" => only_ticks(),
        _ => mixed(s, MIXED),
    };
    let to = &mut Answers::of(events);
    match side {
        "events" => after(Events(proved(s)), before).play(events, to),
        "calls" => after(Calls(proved(s)), before).play(events, to),
        "rings" => after(Unchecked(rings(s)), before).play(events, to),
        "c" => after(C(c(s)), before).play(events, to),
        "checkedc" => after(CheckedC(c(s)), before).play(events, to),
        _ => after(Checked(rings(s)), before).play(events, to),
    }
}

fn main() {
    if cfg!(debug_assertions) {
        eprintln!("checks slow the unproved side: cargo run --profile bench --bin bench");
        std::process::exit(2);
    }
    let words: Vec<String> = std::env::args().skip(1).collect();
    if let [side, name] = &words[..] {
        return profiled(side, name);
    }
    println!("| a / b | a, ns an event | b, ns an event | ratio |");
    println!("|---|---|---|---|");
    mixed_events("small", &small());
    mixed_events("middle", &middle());
    mixed_events("large", &large());
    blocks();
    let (one, many) = (proved(&with_tasks(1)), proved(&with_tasks(32)));
    growth("32 tasks / 1 task", &many, &one);
    let lying = after(Events(many.clone()), &all_messages_sent()).0;
    growth("256 messages lie / none", &lying, &many);
    ticks();
    alarms();
    levels();
    long_run();
    texts();
}
