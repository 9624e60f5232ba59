//! A state as the paper's picture: what is kept of each task and object, and the queues as lists. Whether a picture is a sound state is
//! decided here by "A sound state" of the paper and request K11 alone, and what is told of one that is not by requests K6 and K7 alone.
use crate::setup::ALARMS;
use std::fmt;

/// What a task can wait on, by id.
#[derive(Clone, Copy, PartialEq, Eq, Debug)]
pub enum Object {
    Semaphore(u32),
    Flag(u32),
    Mailbox(u32),
    Pool(u32),
}

/// What a task waits for.
#[derive(Clone, Copy, PartialEq, Eq, Debug)]
pub enum Wait {
    /// A wake-up, for ever.
    Asleep,
    /// A wake-up, for so many ticks.
    Timed(u32),
    /// An object; the pattern and the mode are a flag's, else 0.
    On(Object, u32, u32),
}

/// RUN isn't kept: the running rule says which READY task it is.
#[derive(Clone, Copy, PartialEq, Eq, Debug)]
pub enum Standing {
    /// The id may be made again.
    Absent,
    Dormant,
    Ready,
    Suspend,
    Wait(Wait),
    WaitSuspend(Wait),
}

impl Standing {
    pub fn wait(self) -> Option<Wait> {
        match self {
            Standing::Wait(wait) | Standing::WaitSuspend(wait) => Some(wait),
            _ => None,
        }
    }

    pub fn asleep(self) -> bool {
        matches!(self.wait(), Some(Wait::Asleep | Wait::Timed(_)))
    }

    pub fn suspended(self) -> bool {
        matches!(self, Standing::Suspend | Standing::WaitSuspend(_))
    }
}

#[derive(Clone, PartialEq, Eq, Debug)]
pub struct Task {
    pub start: u32,
    pub priority: u32,
    pub standing: Standing,
    pub wakeups: u32,
    /// Code and word.
    pub cell: (i32, u32),
}

/// A task that is not there has nothing.
pub const ABSENT: Task = Task {
    start: 0,
    priority: 0,
    standing: Standing::Absent,
    wakeups: 0,
    cell: (0, 0),
};

/// When an alarm fires: at this count, and with a period again and again.
#[derive(Clone, Copy, PartialEq, Eq, Debug)]
pub struct Due {
    pub expiry: u32,
    /// 0 for once.
    pub period: u32,
}

#[derive(Clone, Copy, PartialEq, Eq, Debug)]
pub struct Alarm {
    pub task: u32,
    /// It wakes its task, else it starts it.
    pub wakes: bool,
    /// The code of the last firing, 0 before any.
    pub kept: i32,
    /// None while it is idle.
    pub due: Option<Due>,
}

#[derive(Clone, PartialEq, Eq, Debug)]
pub struct Counter {
    /// It goes to one less and round.
    pub size: u32,
    pub present: u32,
    pub alarms: [Alarm; ALARMS],
}

/// The waiters on each object of a kind, by id from 1.
pub type Queues = Vec<Vec<u32>>;

#[derive(Clone, PartialEq, Eq, Debug)]
pub struct Picture {
    pub priorities: u32,
    pub tasks: Vec<Task>,
    pub semaphores: Vec<u32>,
    pub flags: Vec<u32>,
    pub mailboxes: u32,
    /// The mailbox of each message, or 0.
    pub messages: Vec<u32>,
    /// Which blocks of each pool are free, by their marks.
    pub pools: Vec<Vec<bool>>,
    pub clock: u64,
    /// Handlers that are open.
    pub depth: u32,
    /// The task that ran at the outermost entry; none if none did, or no handler is open.
    pub interrupted: Option<u32>,
    /// The ready queue of each priority.
    pub ready: Queues,
    pub semaphore_waiters: Queues,
    pub flag_waiters: Queues,
    pub mailbox_waiters: Queues,
    pub pool_waiters: Queues,
    /// The messages of each mailbox.
    pub mail: Queues,
    /// The free blocks of each pool.
    pub free: Queues,
    pub counter: Option<Counter>,
}

/// A rule in words.
pub type Rule = &'static str;
pub const DEPTH_RULE: Rule = "depth of handlers";
pub const INTERRUPTED_RULE: Rule = "interrupted task";
pub const ABSENT_RULE: Rule = "task not there";
pub const COUNTER_SIZE_RULE: Rule = "counter's size";
pub const PRESENT_RULE: Rule = "counter's present count";
pub const ALARM_TASK_RULE: Rule = "alarm's task";
pub const ALARM_ACT_RULE: Rule = "alarm's start or wake";
pub const KEPT_RULE: Rule = "alarm's kept code";
pub const EXPIRY_RULE: Rule = "alarm's expiry";
pub const PERIOD_RULE: Rule = "alarm's period";
pub const MARK_RULE: Rule = "message's mark against its list";
/// These three only a memory can break, no picture.
pub const BACKWARD_RULE: Rule = "backward link";
pub const UNLINKED_RULE: Rule = "link of who stands nowhere";
pub const NONEMPTY_RULE: Rule = "word of nonempty ready queues";

/// A number out of range anywhere, or any breach but those of the other four; its id is 0.
pub const H_NUMBER: i32 = -20;
/// A task missing from, doubled in or foreign to a queue.
pub const H_QUEUE: i32 = -21;
/// A waiter on an object, first in line or not, beside what would serve it.
pub const H_SERVED: i32 = -22;
/// A message held twice.
pub const H_TWICE: i32 = -23;
/// A pool's free block missing, doubled or foreign.
pub const H_FREE: i32 = -24;
pub const DAMAGE_CODES: [i32; 5] = [H_NUMBER, H_QUEUE, H_SERVED, H_TWICE, H_FREE];

/// What is told of a state that is not sound: the first rule broken, by its code, and the smallest id that breaks it.
#[derive(Clone, Copy, PartialEq, Eq, Debug)]
pub struct Breach {
    pub code: i32,
    pub id: u32,
    pub rule: Rule,
}

impl Breach {
    pub const fn number(rule: Rule) -> Breach {
        Breach {
            code: H_NUMBER,
            id: 0,
            rule,
        }
    }
}

impl fmt::Display for Breach {
    fn fmt(&self, f: &mut fmt::Formatter) -> fmt::Result {
        write!(f, "{} ({}, {})", self.rule, self.code, self.id)
    }
}

/// A rule that an id breaks: its code, how many ids there are, and whether one breaks it.
struct IdRule {
    code: i32,
    rule: Rule,
    ids: fn(&Picture) -> usize,
    broken: fn(&Picture, u32) -> bool,
}

/// In the order in which they are tried, where every number is in its range.
const ID_RULES: [IdRule; 4] = [
    IdRule {
        code: H_QUEUE,
        rule: "who stands in a queue",
        ids: |p| p.tasks.len(),
        broken: Picture::stands_wrong,
    },
    IdRule {
        code: H_SERVED,
        rule: "waiter beside what would serve it",
        ids: |p| p.tasks.len(),
        broken: Picture::overlooked,
    },
    IdRule {
        code: H_TWICE,
        rule: "message held twice",
        ids: |p| p.messages.len(),
        broken: Picture::held_twice,
    },
    IdRule {
        code: H_FREE,
        rule: "free blocks in their queue",
        ids: |p| p.pools.len(),
        broken: Picture::lists_wrong,
    },
];

pub const TICKS_MOST: u32 = 2_147_483_647;
pub const CLOCK_END: u64 = 1 << 48;
const DEPTH_MOST: u32 = 15;
const CELL_CODES: [i32; 3] = [0, -3413, -3414];
/// What an alarm can have kept: E_NOEXS or H_NODMT of a start; E_NOEXS, E_DMT or E_QOVR of a wake.
const START_CODES: [i32; 3] = [0, -2100, -3];
const WAKE_CODES: [i32; 4] = [0, -2100, -2101, -2889];

/// A rule on numbers, or one that has no code of its own.
fn keep(holds: bool, rule: Rule) -> Result<(), Breach> {
    if holds {
        Ok(())
    } else {
        Err(Breach::number(rule))
    }
}

fn numbered(id: u32, count: usize) -> bool {
    1 <= id && id as usize <= count
}

/// Mode 1-bit set: any bit of the wish, unset: all bits.
pub fn meets(pattern: u32, wish: u32, mode: u32) -> bool {
    if mode & 1 != 0 {
        pattern & wish != 0
    } else {
        pattern & wish == wish
    }
}

/// Where a task can stand.
#[derive(Clone, Copy, PartialEq, Eq, Debug)]
enum Place {
    Ready(u32),
    On(Object),
}

/// Whether a task or a block belongs anywhere, how often it stands there, and how often elsewhere.
pub struct Stands {
    belongs: bool,
    at_home: usize,
    elsewhere: usize,
}

impl Stands {
    pub fn missing(&self) -> bool {
        self.belongs && self.at_home == 0
    }

    pub fn doubled(&self) -> bool {
        self.at_home > 1
    }

    pub fn foreign(&self) -> bool {
        self.elsewhere > 0
    }

    /// Right is once where it belongs and nowhere else.
    fn wrong(&self) -> bool {
        self.missing() || self.doubled() || self.foreign()
    }
}

fn times(queue: &[u32], id: u32) -> usize {
    queue.iter().filter(|stands| **stands == id).count()
}

/// Of what stands in id order from 1 on.
fn at<T>(all: &[T], id: u32) -> &T {
    &all[id as usize - 1]
}

impl Picture {
    pub fn task(&self, id: u32) -> &Task {
        at(&self.tasks, id)
    }

    /// Whether it is a sound state; else the first rule broken, at the smallest id.
    pub fn sound(&self) -> Result<(), Breach> {
        self.numbers_in_range()?;
        match self.breaches().next() {
            Some(first) => Err(first),
            None => self.marks_agree(),
        }
    }

    /// Whether every number is in its range; the rules behind it rely on that.
    fn numbers_in_range(&self) -> Result<(), Breach> {
        self.counts_in_range()?;
        self.objects_in_range()?;
        for task in &self.tasks {
            self.task_in_range(task)?;
        }
        self.handlers_in_range()?;
        self.alarms_in_range()?;
        self.entries_in_range()
    }

    /// Each id that breaks a rule with a code of its own, by rule and then by id. Asked only of numbers in their ranges.
    pub fn breaches(&self) -> impl Iterator<Item = Breach> + '_ {
        ID_RULES.iter().flat_map(move |rule| {
            let ids = 1..=(rule.ids)(self) as u32;
            let broken = ids.filter(move |id| (rule.broken)(self, *id));
            broken.map(move |id| Breach {
                code: rule.code,
                id,
                rule: rule.rule,
            })
        })
    }
}

impl Alarm {
    /// Those that it can have kept.
    pub fn codes(&self) -> &'static [i32] {
        if self.wakes {
            &WAKE_CODES
        } else {
            &START_CODES
        }
    }
}

// ---- numbers

impl Picture {
    fn counts_in_range(&self) -> Result<(), Breach> {
        keep((1..=16).contains(&self.priorities), "number of priorities")?;
        keep((1..=32).contains(&self.tasks.len()), "number of tasks")?;
        keep(self.semaphores.len() <= 16, "number of semaphores")?;
        keep(self.flags.len() <= 16, "number of flags")?;
        keep(self.mailboxes <= 16, "number of mailboxes")?;
        keep(self.messages.len() <= 256, "number of messages")?;
        keep(self.pools.len() <= 8, "number of pools")
    }

    fn objects_in_range(&self) -> Result<(), Breach> {
        keep(
            self.semaphores.iter().all(|count| *count <= 65535),
            "semaphore's count",
        )?;
        keep(
            self.pools
                .iter()
                .all(|blocks| (1..=32).contains(&blocks.len())),
            "pool's blocks",
        )?;
        keep(
            self.messages
                .iter()
                .all(|mailbox| *mailbox <= self.mailboxes),
            "message's mailbox",
        )?;
        keep(self.clock < CLOCK_END, "clock")
    }

    /// The interrupted task is none, or one that is ready, running or suspended.
    fn handlers_in_range(&self) -> Result<(), Breach> {
        keep(self.depth <= DEPTH_MOST, DEPTH_RULE)?;
        let Some(id) = self.interrupted else {
            return Ok(());
        };
        keep(
            self.depth > 0 && numbered(id, self.tasks.len()),
            INTERRUPTED_RULE,
        )?;
        let stands = matches!(self.task(id).standing, Standing::Ready | Standing::Suspend);
        keep(stands, INTERRUPTED_RULE)
    }

    fn alarms_in_range(&self) -> Result<(), Breach> {
        let Some(counter) = &self.counter else {
            return Ok(());
        };
        keep((1..=65535).contains(&counter.size), COUNTER_SIZE_RULE)?;
        keep(counter.present < counter.size, PRESENT_RULE)?;
        for alarm in &counter.alarms {
            keep(numbered(alarm.task, self.tasks.len()), ALARM_TASK_RULE)?;
            keep(alarm.codes().contains(&alarm.kept), KEPT_RULE)?;
            if let Some(due) = alarm.due {
                keep(due.expiry < counter.size, EXPIRY_RULE)?;
                keep(due.period <= counter.size, PERIOD_RULE)?;
            }
        }
        Ok(())
    }

    fn task_in_range(&self, task: &Task) -> Result<(), Breach> {
        if task.standing == Standing::Absent {
            return keep(*task == ABSENT, ABSENT_RULE);
        }
        keep(
            (1..=self.priorities).contains(&task.start),
            "starting priority",
        )?;
        keep((1..=self.priorities).contains(&task.priority), "priority")?;
        keep(task.wakeups <= 15, "wake-up count")?;
        keep(CELL_CODES.contains(&task.cell.0), "cell's code")?;
        keep(task.cell.0 == 0 || task.cell.1 == 0, "cell's word")?;
        keep(
            !task.standing.asleep() || task.wakeups == 0,
            "sleeper's wake-up count",
        )?;
        if task.standing == Standing::Dormant {
            keep(task.wakeups == 0, "dormant task's wake-up count")?;
            keep(task.priority == task.start, "dormant task's priority")?;
        }
        match task.standing.wait() {
            None | Some(Wait::Asleep) => Ok(()),
            Some(Wait::Timed(left)) => keep((1..=TICKS_MOST).contains(&left), "ticks left"),
            Some(Wait::On(object, wish, mode)) => self.wait_in_range(object, wish, mode),
        }
    }

    fn wait_in_range(&self, object: Object, wish: u32, mode: u32) -> Result<(), Breach> {
        let there = match object {
            Object::Semaphore(id) => numbered(id, self.semaphores.len()),
            Object::Flag(id) => numbered(id, self.flags.len()),
            Object::Mailbox(id) => numbered(id, self.mailboxes as usize),
            Object::Pool(id) => numbered(id, self.pools.len()),
        };
        keep(there, "object waited on")?;
        if let Object::Flag(_) = object {
            keep(wish != 0, "pattern waited for")?;
            keep(mode <= 3, "mode waited with")?;
        }
        Ok(())
    }

    /// What stands in a queue is an id.
    fn entries_in_range(&self) -> Result<(), Breach> {
        let ids = |queues: &Queues, count| queues.iter().flatten().all(|id| numbered(*id, count));
        for queues in self.task_queues() {
            keep(ids(queues, self.tasks.len()), "id in a queue")?;
        }
        keep(ids(&self.mail, self.messages.len()), "id in a mailbox")?;
        let mut blocks = self.free.iter().zip(&self.pools);
        let own = |(queue, pool): (&Vec<u32>, &Vec<bool>)| {
            queue.iter().all(|block| numbered(*block, pool.len()))
        };
        keep(blocks.all(own), "block in a free queue")
    }
}

// ---- rules that an id breaks

impl Picture {
    /// All queues of tasks, kind by kind.
    pub fn task_queues(&self) -> [&Queues; 5] {
        [
            &self.ready,
            &self.semaphore_waiters,
            &self.flag_waiters,
            &self.mailbox_waiters,
            &self.pool_waiters,
        ]
    }

    /// Each place of tasks with its queue.
    fn places(&self) -> impl Iterator<Item = (Place, &Vec<u32>)> {
        let kinds: [fn(u32) -> Place; 5] = [
            Place::Ready,
            |id| Place::On(Object::Semaphore(id)),
            |id| Place::On(Object::Flag(id)),
            |id| Place::On(Object::Mailbox(id)),
            |id| Place::On(Object::Pool(id)),
        ];
        let kinds = kinds.into_iter().zip(self.task_queues());
        kinds.flat_map(|(place, queues)| (1..).map(place).zip(queues))
    }

    /// Where a task belongs; a sleeper, a suspended, a dormant one and one that is not there nowhere.
    fn home(&self, id: u32) -> Option<Place> {
        let task = self.task(id);
        match (task.standing, task.standing.wait()) {
            (Standing::Ready, _) => Some(Place::Ready(task.priority)),
            (_, Some(Wait::On(object, _, _))) => Some(Place::On(object)),
            _ => None,
        }
    }

    pub fn stands(&self, id: u32) -> Stands {
        let home = self.home(id);
        let mut stands = Stands {
            belongs: home.is_some(),
            at_home: 0,
            elsewhere: 0,
        };
        for (place, queue) in self.places() {
            let counted = if home == Some(place) {
                &mut stands.at_home
            } else {
                &mut stands.elsewhere
            };
            *counted += times(queue, id);
        }
        stands
    }

    fn stands_wrong(&self, id: u32) -> bool {
        self.stands(id).wrong()
    }

    /// Whether a task waits for an object and is the first in line.
    pub fn first_in_line(&self, id: u32) -> bool {
        let waiters = self
            .places()
            .filter(|(place, _)| matches!(place, Place::On(_)));
        let mut firsts = waiters.filter_map(|(_, queue)| queue.first());
        firsts.any(|first| *first == id)
    }

    /// It need not be the first in line.
    fn overlooked(&self, id: u32) -> bool {
        let Some(Wait::On(object, wish, mode)) = self.task(id).standing.wait() else {
            return false;
        };
        match object {
            Object::Semaphore(on) => *at(&self.semaphores, on) > 0,
            Object::Flag(on) => meets(*at(&self.flags, on), wish, mode),
            Object::Mailbox(on) => !at(&self.mail, on).is_empty(),
            Object::Pool(on) => at(&self.pools, on).contains(&true),
        }
    }

    /// How often each mailbox holds a message.
    pub fn held(&self, message: u32) -> impl Iterator<Item = usize> + '_ {
        self.mail.iter().map(move |list| times(list, message))
    }

    /// All mailboxes taken together.
    fn held_twice(&self, message: u32) -> bool {
        self.held(message).sum::<usize>() > 1
    }

    /// How each block of a pool stands in its queue: one that is free belongs there, any other is foreign.
    pub fn blocks(&self, pool: u32) -> impl Iterator<Item = Stands> + '_ {
        let queue = at(&self.free, pool);
        let stands = move |(block, free): (u32, &bool)| {
            let listed = times(queue, block);
            Stands {
                belongs: *free,
                at_home: if *free { listed } else { 0 },
                elsewhere: if *free { 0 } else { listed },
            }
        };
        (1..).zip(at(&self.pools, pool)).map(stands)
    }

    /// The marks decide what is free.
    fn lists_wrong(&self, pool: u32) -> bool {
        self.blocks(pool).any(|block| block.wrong())
    }
}

// ---- what has no code of its own

impl Picture {
    /// A message's mark names the mailbox that holds it, or none.
    fn marks_agree(&self) -> Result<(), Breach> {
        let holder = |message| {
            let mut mailboxes = (1..).zip(&self.mail);
            let found = mailboxes.find(|(_, list)| list.contains(&message));
            found.map_or(0, |(mailbox, _)| mailbox)
        };
        let agree = (1..)
            .zip(&self.messages)
            .all(|(id, mark)| *mark == holder(id));
        keep(agree, MARK_RULE)
    }
}
