//! Random setups and events that lead a kernel into every corner: moods that crowd few objects with many tasks, and wrong words.
use crate::picture::Standing;
use crate::plain::{
    names_task, Event, Plain, ALM_STS, CALLS, CAN_ALM, CRE_TSK, DEL_TSK, SET_ABS, SET_REL,
};
use crate::random::Random;
use crate::setup::{Counter, Setup, ALARMS};

// ---- setups

/// What a setup is made for.
#[derive(Clone, Copy)]
pub enum Size {
    /// Few of each, often none.
    Small,
    /// Any number of each.
    Any,
    /// As much as a setup can have.
    Full,
    /// Many started tasks, few priorities and one of each object, so that queues grow long.
    Crowd,
}

pub const SIZES: [Size; 4] = [Size::Small, Size::Any, Size::Full, Size::Crowd];

fn many(random: &mut Random, size: Size, most: u32) -> u32 {
    match size {
        Size::Small => random.below(most.min(2) + 1),
        Size::Any => random.below(most + 1),
        Size::Full => most,
        Size::Crowd => 1,
    }
}

fn tasks(random: &mut Random, size: Size, priorities: u32) -> Vec<(u32, bool)> {
    let (count, started) = match size {
        Size::Small => (random.within(1, 5), 70),
        Size::Any => (random.within(1, 32), 60),
        Size::Full => (32, 80),
        Size::Crowd => (random.within(28, 32), 95),
    };
    (0..count)
        .map(|_| (random.within(1, priorities), random.percent(started)))
        .collect()
}

/// Mostly empty, so that tasks wait, and now and then at the top.
fn semaphore(random: &mut Random, size: Size) -> u32 {
    match random.below(10) {
        0 => random.within(65533, 65535),
        1..=4 if !matches!(size, Size::Crowd) => random.below(4),
        _ => 0,
    }
}

fn flag(random: &mut Random) -> u32 {
    match random.below(4) {
        0 => random.word(),
        1 => random.below(16),
        _ => 0,
    }
}

fn pool(random: &mut Random) -> u32 {
    match random.below(4) {
        0 => random.within(1, 32),
        1 => 32,
        _ => random.within(1, 3),
    }
}

/// Mostly small, so that alarms fire often. As often alarms of one task as of any.
fn counter(random: &mut Random, tasks: u32) -> Counter {
    let size = match random.below(8) {
        0 => 1,
        1 => random.pick(&[65535, 65534, 1000]),
        _ => random.within(2, 6),
    };
    let one = random.percent(50).then(|| random.within(1, tasks));
    let wake = random.pick(&[0, 50, 80, 100]);
    let mut alarm = || {
        let task = one.unwrap_or_else(|| random.within(1, tasks));
        (task, random.percent(wake))
    };
    Counter {
        size,
        alarms: std::array::from_fn(|_| alarm()),
    }
}

pub fn setup(random: &mut Random, size: Size) -> Setup {
    let priorities = match size {
        Size::Small | Size::Crowd => random.within(1, 4),
        Size::Any => random.within(1, 16),
        Size::Full => 16,
    };
    let tasks = tasks(random, size, priorities);
    let semaphores = (0..many(random, size, 16))
        .map(|_| semaphore(random, size))
        .collect();
    let flags = (0..many(random, size, 16)).map(|_| flag(random)).collect();
    let mailboxes = many(random, size, 16);
    let messages = match size {
        Size::Small => random.below(4),
        Size::Any => random.below(257),
        Size::Full | Size::Crowd => 256,
    };
    let pools = (0..many(random, size, 8)).map(|_| pool(random)).collect();
    let counted = matches!(size, Size::Full) || random.percent(75);
    let counter = counted.then(|| counter(random, tasks.len() as u32));
    Setup {
        priorities,
        tasks,
        semaphores,
        flags,
        mailboxes,
        messages,
        pools,
        counter,
    }
}

// ---- events

/// Which calls come, and how: percentages of ticks, of handlers and of wrong words, and of words that the mood keeps coming back to. While
/// a handler is open, `deeper` is the percentage of its turns that enter another.
#[derive(Clone, Copy)]
struct Mood {
    calls: &'static [i32],
    ticks: u32,
    handlers: u32,
    wrong: u32,
    focus: u32,
    deeper: u32,
}

const fn mood(calls: &'static [i32], ticks: u32, handlers: u32, wrong: u32, focus: u32) -> Mood {
    Mood {
        calls,
        ticks,
        handlers,
        wrong,
        focus,
        deeper: 5,
    }
}

const fn nested(deeper: u32, mood: Mood) -> Mood {
    Mood { deeper, ..mood }
}

/// sta_tsk and cre_tsk twice, so that tasks that end or go come again.
const ALL: [i32; 41] = [
    1, 2, 3, 4, 5, 6, 7, 8, 9, 10, 11, 12, 13, 14, 15, 16, 17, 18, 19, 20, 21, 22, 23, 24, 25, 26,
    27, 28, 29, 30, 31, 32, 33, 34, 35, 36, 37, 38, 39, 1, 33,
];

const MOODS: [Mood; 23] = [
    // of everything, right and wrong
    mood(&ALL, 10, 35, 10, 30),
    mood(&ALL, 5, 50, 50, 30),
    // tasks wait, twice all of them for the same
    mood(&[9, 10, 14, 18, 21, 23], 2, 2, 2, 50),
    mood(&[14, 18, 21, 23], 0, 0, 0, 99),
    mood(&[18], 0, 0, 0, 99),
    // queues of a flag, with waiters of every mode, are served
    mood(&[1, 7, 16, 17, 17, 18, 18, 18], 0, 20, 2, 20),
    // handlers serve
    mood(&[6, 8, 11, 13, 16, 20, 25], 10, 80, 3, 50),
    // tasks come and go
    mood(&[1, 2, 3, 4, 5, 7, 8, 12], 5, 50, 5, 30),
    mood(&[1, 1, 1, 2, 3], 5, 60, 0, 0),
    // and are made and deleted
    mood(&[1, 1, 3, 33, 33, 33, 34, 34, 35], 2, 20, 3, 10),
    mood(
        &[1, 3, 4, 6, 7, 8, 11, 12, 27, 33, 34, 34, 34],
        2,
        50,
        5,
        10,
    ),
    // alarms are set, all of them, and fire
    mood(&[36, 37], 2, 40, 2, 10),
    mood(&[36, 37, 37, 38, 39], 40, 40, 5, 10),
    // on tasks that sleep, end, go and come
    mood(&[1, 2, 3, 9, 10, 10, 36, 37], 40, 10, 2, 10),
    mood(&[3, 33, 34, 34, 36, 37, 39], 30, 10, 2, 10),
    mood(&[7, 9, 10, 10, 10, 12, 37], 30, 5, 0, 0),
    // waits end while tasks are suspended
    mood(&[7, 8, 6, 10, 9, 14], 20, 50, 3, 40),
    // counts rise and mailboxes fill; the last is short of events to fill one with all messages if it does anything else
    mood(&[11], 0, 90, 2, 90),
    mood(&[20, 20, 20, 22], 1, 50, 2, 60),
    nested(0, mood(&[20], 0, 100, 0, 95)),
    // handlers in handlers, and what they do to the interrupted task
    nested(60, mood(&ALL, 10, 90, 5, 30)),
    nested(30, mood(&[4, 5, 7, 8, 26, 27], 5, 80, 3, 30)),
    nested(40, mood(&[1, 5, 6, 11, 26, 27], 5, 60, 3, 0)),
];

const NUMBERS_OUTSIDE: [i32; 6] = [0, CALLS + 1, -1, 64, i32::MIN, i32::MAX];
/// The top one, too: a pattern is an unsigned number.
const BITS: [i32; 4] = [1, 2, 4, i32::MIN];
const CONTEXTS_OUTSIDE: [i32; 7] = [2, -1, 3, 4, 5, i32::MIN, i32::MAX];

/// Who is next: a call of the running task or of a handler, an entry or a return.
#[derive(Clone, Copy, PartialEq, Eq)]
enum Turn {
    Task,
    Handler,
    Enter,
    Leave,
}

/// Writes events for a plain kernel as it stands. A mood lasts a while and has a call, an id, a bit and a mode that it keeps coming back to.
pub struct Author {
    mood: Mood,
    left: u32,
    call: i32,
    id: u32,
    bit: i32,
    mode: i32,
}

impl Default for Author {
    fn default() -> Author {
        Author {
            mood: MOODS[0],
            left: 0,
            call: 1,
            id: 1,
            bit: 1,
            mode: 0,
        }
    }
}

impl Author {
    fn change_mood(&mut self, random: &mut Random) {
        self.mood = random.pick(&MOODS);
        self.left = if random.percent(10) {
            380
        } else {
            random.within(5, 60)
        };
        self.call = random.pick(self.mood.calls);
        self.id = random.within(1, 4);
        self.bit = random.pick(&BITS);
        self.mode = random.below(4) as i32;
    }

    pub fn event(&mut self, random: &mut Random, plain: &Plain) -> Event {
        // tasks alone get nowhere once all of them wait
        let stuck = self.mood.handlers < 10 && plain.best().is_none();
        if self.left == 0 || stuck && random.percent(70) {
            self.change_mood(random);
        }
        self.left -= 1;
        if random.percent(self.mood.ticks) {
            return Event::Tick;
        }
        match self.turn(random, plain) {
            Turn::Enter => Event::Enter,
            Turn::Leave => Event::Leave,
            turn => self.call_by(random, plain, turn),
        }
    }

    fn call_by(&self, random: &mut Random, plain: &Plain, turn: Turn) -> Event {
        let number = self.number(random);
        let context = self.context(random, turn);
        let (a, b, c) = self.words(random, plain, number);
        Event::Call {
            context,
            number,
            a,
            b,
            c,
        }
    }

    fn wrong(&self, random: &mut Random) -> bool {
        random.percent(self.mood.wrong)
    }

    fn number(&self, random: &mut Random) -> i32 {
        if self.wrong(random) && random.percent(10) {
            random.pick(&NUMBERS_OUTSIDE)
        } else if self.focused(random) {
            self.call
        } else {
            random.pick(self.mood.calls)
        }
    }

    /// Mostly what suits the handlers that are open, now and then what doesn't.
    fn turn(&self, random: &mut Random, plain: &Plain) -> Turn {
        let open = plain.depth() > 0;
        let handlers = if plain.best().is_none() {
            85
        } else {
            self.mood.handlers
        };
        let handler = random.percent(handlers);
        if random.percent(4) || self.wrong(random) && random.percent(20) {
            return random.pick(&[Turn::Task, Turn::Handler, Turn::Enter, Turn::Leave]);
        }
        match (handler, open) {
            (true, true) if random.percent(self.mood.deeper) => Turn::Enter,
            (true, true) if random.percent(8) => Turn::Leave,
            (true, true) => Turn::Handler,
            (true, false) => Turn::Enter,
            (false, true) => Turn::Leave,
            (false, false) => Turn::Task,
        }
    }

    fn context(&self, random: &mut Random, turn: Turn) -> i32 {
        if self.wrong(random) && random.percent(10) {
            return random.pick(&CONTEXTS_OUTSIDE);
        }
        i32::from(turn == Turn::Handler)
    }

    /// Words that the call ignores are random, too.
    fn words(&self, random: &mut Random, plain: &Plain, number: i32) -> (i32, i32, i32) {
        let counts = plain.counts();
        let any = |random: &mut Random| random.word() as i32;
        let a = match number {
            1 | DEL_TSK => self.standing(random, plain, counts.tasks, Standing::Dormant),
            CRE_TSK => self.standing(random, plain, counts.tasks, Standing::Absent),
            _ if names_task(number) => self.id(random, counts.tasks),
            5 => self.rotated(random, counts.priorities),
            10 => self.time(random),
            13..=15 | 28 => self.id(random, counts.semaphores),
            16..=19 | 29 => self.id(random, counts.flags),
            20..=22 | 30 => self.id(random, counts.mailboxes),
            23..=25 | 31 => self.id(random, counts.pools),
            SET_ABS | SET_REL => self.alarm(random, plain, false),
            CAN_ALM => self.alarm(random, plain, true),
            ALM_STS => self.id(random, ALARMS as u32),
            _ => any(random),
        };
        let b = match number {
            4 | CRE_TSK => self.id(random, counts.priorities),
            16 => self.pattern(random),
            17 => !self.pattern(random),
            18 | 19 => self.wish(random),
            20 => self.message(random, plain, counts.messages),
            25 => self.block(random, plain, a),
            SET_ABS | SET_REL => self.count(random, plain),
            _ => any(random),
        };
        let c = match number {
            18 | 19 => self.mode(random),
            SET_ABS | SET_REL => self.period(random, plain),
            _ => any(random),
        };
        (a, b, c)
    }

    fn id(&self, random: &mut Random, count: u32) -> i32 {
        if count == 0 || self.wrong(random) {
            let edges = [0, -1, count as i32 + 1, i32::MIN, i32::MAX, 257];
            return random.pick(&edges);
        }
        if self.focused(random) && self.id <= count {
            self.id as i32
        } else {
            random.within(1, count) as i32
        }
    }

    /// Mostly a task that stands so, if there is one.
    fn standing(&self, random: &mut Random, plain: &Plain, count: u32, wanted: Standing) -> i32 {
        let first = self.id(random, count);
        if random.percent(20) || !(1..=count as i32).contains(&first) {
            return first;
        }
        let mut ids = (first..=count as i32).chain(1..first);
        let found = ids.find(|id| plain.task(*id as u32).standing == wanted);
        found.unwrap_or(first)
    }

    /// Mostly one that is in use, or idle, as it is wanted.
    fn alarm(&self, random: &mut Random, plain: &Plain, used: bool) -> i32 {
        let count = ALARMS as i32;
        let first = self.id(random, ALARMS as u32);
        let (Some(counter), true) = (plain.counter(), (1..=count).contains(&first)) else {
            return first;
        };
        if random.percent(20) {
            return first;
        }
        let mut ids = (first..=count).chain(1..first);
        let found = ids.find(|id| counter.alarms[*id as usize - 1].due.is_some() == used);
        found.unwrap_or(first)
    }

    /// Up to the counter's size: mostly soon, and often at an end or the present count.
    fn count(&self, random: &mut Random, plain: &Plain) -> i32 {
        let Some(counter) = plain.counter() else {
            return random.below(4) as i32;
        };
        let (size, present) = (counter.size as i32, counter.present as i32);
        if self.wrong(random) {
            return random.pick(&[-1, size + 1, i32::MIN, i32::MAX, 65536]);
        }
        match random.below(8) {
            0 => 0,
            1 => size,
            2 => present,
            3 => random.below(counter.size + 1) as i32,
            4 => (present + 1) % size,
            _ => random.within(1, 3).min(counter.size) as i32,
        }
    }

    /// As often none.
    fn period(&self, random: &mut Random, plain: &Plain) -> i32 {
        if random.percent(50) && !self.wrong(random) {
            return 0;
        }
        self.count(random, plain)
    }

    fn rotated(&self, random: &mut Random, priorities: u32) -> i32 {
        if random.percent(40) {
            0
        } else {
            self.id(random, priorities)
        }
    }

    fn time(&self, random: &mut Random) -> i32 {
        if self.wrong(random) {
            return random.pick(&[-2, -3, i32::MIN]);
        }
        match random.below(10) {
            0 => 0,
            1 => -1,
            2 => random.pick(&[i32::MAX, i32::MAX - 1, 1000]),
            _ => random.within(1, 6) as i32,
        }
    }

    fn focused(&self, random: &mut Random) -> bool {
        random.percent(self.mood.focus)
    }

    /// Few bits, so that conditions are met now and then.
    fn pattern(&self, random: &mut Random) -> i32 {
        match random.below(10) {
            0 => random.word() as i32,
            1 => 0,
            2..=5 => random.pick(&BITS) | random.pick(&BITS),
            _ => random.pick(&BITS),
        }
    }

    fn wish(&self, random: &mut Random) -> i32 {
        if self.wrong(random) {
            0
        } else if self.focused(random) {
            self.bit
        } else {
            self.pattern(random) | random.pick(&BITS)
        }
    }

    fn mode(&self, random: &mut Random) -> i32 {
        if self.wrong(random) {
            random.pick(&[-1, 4, 5, i32::MIN, i32::MAX])
        } else if self.focused(random) {
            self.mode
        } else {
            random.below(4) as i32
        }
    }

    /// Mostly the first that lies in no mailbox, if there is one.
    fn message(&self, random: &mut Random, plain: &Plain, count: u32) -> i32 {
        let first = self.id(random, count);
        if random.percent(20) {
            return first;
        }
        let unsent = (1..=count as i32).find(|id| !plain.lies(*id as u32));
        unsent.unwrap_or(first)
    }

    /// Mostly one that is out, if the pool has one.
    fn block(&self, random: &mut Random, plain: &Plain, pool: i32) -> i32 {
        if self.wrong(random) || random.percent(20) {
            return random.pick(&[0, -1, 33, i32::MIN, i32::MAX, 1, 2, 32]);
        }
        let start = random.within(1, 32);
        let out = (start..=32)
            .chain(1..start)
            .find(|block| plain.is_out(pool, *block));
        out.unwrap_or(start) as i32
    }
}
