//! Damaged states: words of states that runs reach, and of sound states that none reaches soon, are changed one at a time and in sets;
//! rules are broken on purpose (`aimed`) and by hand (`worked`). The kernel accepts such a memory exactly if it is a sound state, and else
//! tells the first rule broken and the smallest id that breaks it.
mod aimed;
mod worked;

use crate::pair::{serve, Pair};
use crate::states::shows_damage;
use crate::Verdict;
use okrozumba::{Answer, State, MESSAGES, STATE_WORDS};
use second::layout;
use second::picture::{
    Breach, Picture, Rule, Standing, ABSENT_RULE, ALARM_ACT_RULE, ALARM_TASK_RULE, BACKWARD_RULE,
    COUNTER_SIZE_RULE, DAMAGE_CODES, DEPTH_RULE, EXPIRY_RULE, H_FREE, H_NUMBER, H_QUEUE, H_SERVED,
    H_TWICE, INTERRUPTED_RULE, KEPT_RULE, MARK_RULE, NONEMPTY_RULE, PERIOD_RULE, PRESENT_RULE,
    UNLINKED_RULE,
};
use second::plain::{Event, Plain, CALLS};
use second::random::Random;
use second::script::{self, Author, SIZES};
use second::sketch;

const BASES: u64 = 24;
const SETS: u32 = 15_000;
/// Every so many memories get all events.
const ALL_EVENTS: u64 = 97;

// ---- what a memory must answer

/// A tick, a call, an entry, a return, and what is none of these.
const FIVE_EVENTS: [i32; 25] = [
    2, 0, 0, 0, 0, 0, 26, 0, 0, 0, 3, 0, 0, 0, 0, 4, 0, 0, 0, 0, 9, 0, 0, 0, 0,
];

/// The events that memory number `turn` gets: one call, a tick, an entry and a return; by turns all calls in both contexts, and calls that
/// don't exist.
fn turn_events(turn: u64) -> Vec<Event> {
    // from 0 to the first that there is not
    let numbers = CALLS as u64 + 2;
    let calls_of = 3 * numbers;
    let call = |n: u64| Event::Call {
        context: (n % 3) as i32,
        number: (n / 3 % numbers) as i32,
        a: (n / calls_of % 3) as i32 + 1,
        b: (n / calls_of / 3 % 3) as i32 + 1,
        c: (n / calls_of / 9 % 4) as i32,
    };
    let calls = if turn.is_multiple_of(ALL_EVENTS) {
        turn..turn + calls_of
    } else {
        turn..turn + 1
    };
    let others = [Event::Tick, Event::Enter, Event::Leave];
    calls.map(call).chain(others).collect()
}

fn report(what: &str, breach: Breach, got: impl std::fmt::Debug, state: &State) -> String {
    format!(
        "{what}; the second decision: {breach}; the kernel: {got:?}\n{:?}\n{:?}",
        state.words(),
        state.messages()
    )
}

/// Code and id for every event, alone and in a batch; the code for every cell and for the states; nothing runs; nothing changes.
pub fn answers_damage(state: &State, breach: Breach, events: &[Event]) -> Result<(), String> {
    let mut kernel = state.clone();
    let refused = Answer {
        code: breach.code,
        w1: breach.id,
        ..Answer::default()
    };
    for event in events {
        let got = serve(&mut kernel, *event);
        if got != refused {
            return Err(report(&format!("{event:?}"), breach, got, state));
        }
    }
    for task in [0, 1, 2, 32, 33] {
        let got = kernel.cell(task);
        if (got.code, got.word) != (breach.code, 0) {
            return Err(report(&format!("cell of {task}"), breach, got, state));
        }
    }
    if kernel.running() != 0 {
        return Err(report("running task", breach, kernel.running(), state));
    }
    if !shows_damage(&kernel, breach.code) {
        return Err(report("the states", breach, kernel.states(), state));
    }
    let (mut codes, mut answers) = ([7; 5], [7; 20]);
    let got = kernel.events(&FIVE_EVENTS, &mut codes, &mut answers);
    let told = [breach.id, 0, 0, 0].repeat(5);
    if got.is_err() || codes != [breach.code; 5] || answers[..] != told {
        return Err(report("a batch", breach, (got, codes, answers), state));
    }
    if kernel != *state {
        return Err(report("the state changed", breach, kernel.words(), state));
    }
    Ok(())
}

/// A memory that is a sound state after all goes on as the plain kernel does.
pub fn answers_sound(state: &State, picture: &Picture, events: &[Event]) -> Result<(), String> {
    for event in events {
        let mut pair = Pair::of(state.clone(), Plain::standing(picture));
        pair.same_running()?;
        pair.same_cell(1)?;
        pair.same_states()?;
        pair.event(*event)?;
        pair.same_picture()?;
    }
    Ok(())
}

// ---- what was told how often

/// The rules on handlers, on tasks that are not there and on alarms, and those that are tried behind all others.
const NAMED_RULES: [Rule; 14] = [
    DEPTH_RULE,
    INTERRUPTED_RULE,
    ABSENT_RULE,
    COUNTER_SIZE_RULE,
    PRESENT_RULE,
    ALARM_TASK_RULE,
    ALARM_ACT_RULE,
    KEPT_RULE,
    EXPIRY_RULE,
    PERIOD_RULE,
    MARK_RULE,
    BACKWARD_RULE,
    UNLINKED_RULE,
    NONEMPTY_RULE,
];

/// What of naming must come up; each asks of a memory with an id told.
type Corner = (&'static str, fn(&Picture, Breach) -> bool);

const CORNERS: [Corner; 14] = [
    ("a task missing", |p, told| {
        told.code == H_QUEUE && p.stands(told.id).missing()
    }),
    ("a task doubled", |p, told| {
        told.code == H_QUEUE && p.stands(told.id).doubled()
    }),
    ("a task foreign", |p, told| {
        told.code == H_QUEUE && p.stands(told.id).foreign()
    }),
    ("a task in a queue that is not there", |p, told| {
        told.code == H_QUEUE && p.task(told.id).standing == Standing::Absent
    }),
    ("a waiter not the first in line", |p, told| {
        told.code == H_SERVED && !p.first_in_line(told.id)
    }),
    ("a message held by two mailboxes", |p, told| {
        told.code == H_TWICE && p.held(told.id).filter(|times| *times > 0).count() > 1
    }),
    ("a message held by no mailbox twice", |p, told| {
        told.code == H_TWICE && p.held(told.id).all(|times| times < 2)
    }),
    ("the smallest of several ids", |p, told| {
        p.breaches().filter(|other| other.code == told.code).count() > 1
    }),
    (
        "waiters, messages or pools behind a task's queue",
        |p, told| told.code == H_QUEUE && p.breaches().any(|other| other.code != told.code),
    ),
    ("messages or pools behind a waiter", |p, told| {
        told.code == H_SERVED && p.breaches().any(|other| other.code != told.code)
    }),
    ("a pool behind a message", |p, told| {
        told.code == H_TWICE && p.breaches().any(|other| other.code != told.code)
    }),
    ("a pool with a free block missing", |p, told| {
        told.code == H_FREE && p.blocks(told.id).any(|block| block.missing())
    }),
    ("a pool with a free block doubled", |p, told| {
        told.code == H_FREE && p.blocks(told.id).any(|block| block.doubled())
    }),
    ("a pool that lists a block that is out", |p, told| {
        told.code == H_FREE && p.blocks(told.id).any(|block| block.foreign())
    }),
];

#[derive(Default)]
struct Tally {
    damaged: u64,
    sound: u64,
    events: u64,
    /// By code.
    codes: [u64; DAMAGE_CODES.len()],
    corners: [u64; CORNERS.len()],
    named: [u64; NAMED_RULES.len()],
    /// Sound, with a handler open, and with a counter.
    open: u64,
    counted: u64,
}

impl Tally {
    fn judge(&mut self, state: &State) -> Result<(), String> {
        let events = turn_events(self.damaged + self.sound);
        self.events += events.len() as u64;
        match layout::shown(state) {
            Err(breach) => {
                self.count(state, breach)?;
                answers_damage(state, breach, &events)
            }
            Ok(picture) => {
                self.sound += 1;
                self.open += u64::from(picture.depth > 0);
                self.counted += u64::from(picture.counter.is_some());
                answers_sound(state, &picture, &events)
            }
        }
    }

    fn count(&mut self, state: &State, told: Breach) -> Result<(), String> {
        self.damaged += 1;
        for (times, code) in self.codes.iter_mut().zip(DAMAGE_CODES) {
            *times += u64::from(code == told.code);
        }
        for (times, rule) in self.named.iter_mut().zip(NAMED_RULES) {
            *times += u64::from(rule == told.rule);
        }
        if told.code == H_NUMBER {
            return Ok(());
        }
        let picture = layout::seen(state).map_err(|breach| format!("{told}, yet {breach}"))?;
        for (times, (_, met)) in self.corners.iter_mut().zip(CORNERS) {
            *times += u64::from(met(&picture, told));
        }
        Ok(())
    }

    /// How often each code, rule and corner came up; none may be missing.
    fn lines(&self) -> Result<String, String> {
        let codes = DAMAGE_CODES.map(|code| format!("code {code}"));
        let rules = NAMED_RULES.map(|rule| format!("code {H_NUMBER} for the {rule}"));
        let corners = CORNERS.map(|(corner, _)| format!("told of {corner}"));
        let what = codes.into_iter().chain(rules).chain(corners);
        let times = self.codes.iter().chain(&self.named).chain(&self.corners);
        let mut lines = String::new();
        for (what, times) in what.zip(times) {
            if *times == 0 {
                return Err(format!("never {what}"));
            }
            lines += &format!("  {times:8} times {what}\n");
        }
        Ok(lines)
    }
}

// ---- where damage starts from

fn reached(random: &mut Random, seed: u64) -> Result<State, String> {
    let size = SIZES[seed as usize % SIZES.len()];
    let mut pair = Pair::fresh(&script::setup(random, size))?;
    let mut author = Author::default();
    for _ in 0..random.within(100, 400) {
        let event = author.event(random, &pair.plain);
        pair.event(event)?;
    }
    Ok(pair.kernel)
}

fn sketched(random: &mut Random, seed: u64) -> Picture {
    let size = SIZES[seed as usize % SIZES.len()];
    let setup = script::setup(random, size);
    sketch::picture(random, &setup)
}

/// By turns a state that a run reaches and one that is drawn.
fn base(random: &mut Random, seed: u64) -> Result<State, String> {
    if seed % 3 == 2 {
        let picture = sketched(random, seed);
        return Ok(layout::drawn(&picture, || random.word()));
    }
    reached(random, seed)
}

// ---- words

fn with_word(state: &State, at: usize, word: u32) -> State {
    let (mut words, mut messages) = (*state.words(), *state.messages());
    match at.checked_sub(STATE_WORDS) {
        None => words[at] = word,
        Some(at) => messages[at] = word,
    }
    State::of(words, messages)
}

fn word_at(state: &State, at: usize) -> u32 {
    match at.checked_sub(STATE_WORDS) {
        None => state.words()[at],
        Some(at) => state.messages()[at],
    }
}

/// Near the old word, at the edges of what words mean, and far away.
fn other_words(random: &mut Random, old: u32) -> [u32; 16] {
    [
        old.wrapping_add(1),
        old.wrapping_sub(1),
        old ^ 2,
        old ^ 0x8000_0000,
        0,
        1,
        3,
        5,
        15,
        16,
        32,
        33,
        u32::MAX,
        random.below(34),
        random.below(274),
        random.word(),
    ]
}

fn each_word(tally: &mut Tally, random: &mut Random, base: &State) -> Result<(), String> {
    for at in 0..STATE_WORDS + MESSAGES {
        let old = word_at(base, at);
        for word in other_words(random, old) {
            if word != old {
                tally.judge(&with_word(base, at, word))?;
            }
        }
    }
    Ok(())
}

/// Each word of the counter and its alarms at the edges of what it means, codes that alarms keep and others among them.
fn each_alarm_word(tally: &mut Tally, random: &mut Random, base: &State) -> Result<(), String> {
    let size = word_at(base, layout::ALARM_WORDS.start);
    for at in layout::ALARM_WORDS {
        for word in [
            0,
            1,
            2,
            3,
            size.wrapping_sub(1),
            size,
            size.wrapping_add(1),
            size.wrapping_add(2),
            65535,
            65536,
            2100,
            2101,
            2889,
            3413,
            2100_u32.wrapping_neg(),
            1 << 31,
            u32::MAX,
            random.below(34),
        ] {
            tally.judge(&with_word(base, at, word))?;
        }
    }
    Ok(())
}

/// Each bit of the word of nonempty ready queues by itself, above the priorities too.
fn each_ready_bit(tally: &mut Tally, base: &State) -> Result<(), String> {
    for bit in 0..u32::BITS {
        let state = layout::with_ready_bit_changed(base, bit);
        if layout::shown(&state) != Err(Breach::number(NONEMPTY_RULE)) {
            return Err(format!("bit {bit} of the word changed, and no other rule"));
        }
        tally.judge(&state)?;
    }
    Ok(())
}

/// Several words: some from elsewhere in the same memory, some small, some any.
fn random_set(random: &mut Random, base: &State) -> State {
    let mut state = base.clone();
    let all = (STATE_WORDS + MESSAGES) as u32;
    for _ in 0..random.within(2, 6) {
        let word = match random.below(4) {
            0 => random.word(),
            1 => random.below(106),
            _ => word_at(base, random.below(all) as usize),
        };
        state = with_word(&state, random.below(all) as usize, word);
    }
    state
}

/// Memory that was never a state.
fn noise(tally: &mut Tally, random: &mut Random) -> Result<(), String> {
    for word in [0, 1, 2, 32, u32::MAX] {
        tally.judge(&State::of([word; STATE_WORDS], [word; MESSAGES]))?;
    }
    for end in [2, 8, 34, 106, u32::MAX] {
        let words = std::array::from_fn(|_| random.below(end));
        tally.judge(&State::of(
            words,
            std::array::from_fn(|_| random.below(end)),
        ))?;
    }
    Ok(())
}

pub fn check() -> Verdict {
    let mut tally = Tally::default();
    let worked = worked::check(&mut tally)?;
    for seed in 0..BASES {
        let random = &mut Random::new(1000 + seed);
        let base = base(random, seed)?;
        let named = |d| format!("base {seed}: {d}");
        each_word(&mut tally, random, &base).map_err(named)?;
        each_ready_bit(&mut tally, &base).map_err(named)?;
        each_alarm_word(&mut tally, random, &base).map_err(named)?;
        for _ in 0..SETS {
            tally.judge(&random_set(random, &base)).map_err(named)?;
        }
        noise(&mut tally, random).map_err(named)?;
    }
    aimed::check(&mut tally)?;
    if tally.open == 0 || tally.counted == 0 {
        return Err("too little tested of handlers or alarms".to_string());
    }
    let lines = tally.lines()?;
    Ok(format!(
        "{} damaged memories refused, {worked} of them worked by hand; {} still sound accepted, {} of them with a handler open, {} with a counter; {} events\n{lines}",
        tally.damaged, tally.sound, tally.open, tally.counted, tally.events
    ))
}
