//! The kernel's memory as it is described: docs/ARCHITECTURE.md, the table of columns (crates/memory_columns/specs/Layout.antt) and what their words stand
//! for (crates/memory_picture/specs/Picture.antt). What any two arrays show, and arrays that show a picture. An id is an index into a column; entry
//! 0 is unused.
use crate::picture::{
    Alarm, Breach, Counter, Due, Object, Picture, Queues, Standing, Task, Wait, ALARM_ACT_RULE,
    BACKWARD_RULE, NONEMPTY_RULE, UNLINKED_RULE,
};
use crate::setup::ALARMS;
use okrozumba::{State, MESSAGES, STATE_WORDS};

/// Words of a column: where it begins. Its entries are found by id.
#[derive(Clone, Copy)]
struct Column(usize);

const STATUS: Column = Column(0);
const PRIORITY: Column = Column(33);
const START: Column = Column(66);
const WAKEUPS: Column = Column(99);
const CODE: Column = Column(132);
const WORD: Column = Column(165);
const KIND: Column = Column(198);
const OBJECT: Column = Column(231);
const WISH: Column = Column(264);
const MODE: Column = Column(297);
const TICKS: Column = Column(330);
const SEMAPHORE: Column = Column(573);
const FLAG: Column = Column(590);
const FREE: Column = Column(607);
const SIZE: Column = Column(616);
const SYSTEM: Column = Column(1171);
const HANDLING: Column = Column(1180);
const NONEMPTY: Column = Column(1182);
const COUNTER: Column = Column(1713);
const ALARM_TASK: Column = Column(1715);
const ALARM_WAKES: Column = Column(1724);
const ALARM_KEPT: Column = Column(1733);
const ALARM_DUE: Column = Column(1742);
const ALARM_PERIOD: Column = Column(1751);
/// All words of the counter and its alarms.
pub const ALARM_WORDS: std::ops::Range<usize> = 1713..1760;

/// The two directions of links.
#[derive(Clone, Copy)]
pub struct Links {
    next: Column,
    prev: Column,
}

pub const TASK_LINKS: Links = Links {
    next: Column(363),
    prev: Column(468),
};
pub const MAIL_LINKS: Links = Links {
    next: Column(625),
    prev: Column(898),
};
pub const BLOCK_LINKS: Links = Links {
    next: Column(1183),
    prev: Column(1448),
};

/// Anchors: the node before the first of each kind of queue.
const READY_ANCHORS: u32 = 32;
const SEMAPHORE_ANCHORS: u32 = 48;
const FLAG_ANCHORS: u32 = 64;
const MAILBOX_ANCHORS: u32 = 80;
const POOL_ANCHORS: u32 = 96;
const MAIL_ANCHORS: u32 = 256;
const FREE_ANCHORS: u32 = 256;

/// Nodes of each pool, whatever its number of blocks.
const POOL_NODES: u32 = 32;

/// The node from which a mailbox's list begins.
pub const fn mail_anchor(mailbox: u32) -> u32 {
    MAIL_ANCHORS + mailbox
}

/// The node before a pool's first block: block k of the pool is the k-th behind it.
const fn nodes_before(pool: u32) -> u32 {
    POOL_NODES * (pool - 1)
}

/// Entries of the system's column, and the greatest number of each thing.
const PRIORITIES: (u32, u32) = (0, 16);
const TASKS: (u32, u32) = (1, 32);
const SEMAPHORES: (u32, u32) = (2, 16);
const FLAGS: (u32, u32) = (3, 16);
const MAILBOXES: (u32, u32) = (4, 16);
const POOLS: (u32, u32) = (5, 8);
const MAILS: (u32, u32) = (6, 256);
const CLOCK_LOW: u32 = 7;
const CLOCK_HIGH: u32 = 8;

/// Entries of the handlers' column: how many are open, and the interrupted task or 0.
const DEPTH: u32 = 0;
const INTERRUPTED: u32 = 1;

/// Entries of the counter's column: its size, 0 if there is none, and its present count.
const COUNTER_SIZE: u32 = 0;
const PRESENT: u32 = 1;

/// A cell's code as the memory has it.
const CELL_CODES: [i32; 3] = [0, -3413, -3414];

/// The word of nonempty ready queues: bit p - 1 is that of priority p.
fn nonempty(ready: &Queues) -> u32 {
    (0..)
        .zip(ready)
        .filter(|(_, queue)| !queue.is_empty())
        .map(|(bit, _)| 1 << bit)
        .sum()
}

struct Reader<'a> {
    words: &'a [u32; STATE_WORDS],
    messages: &'a [u32; MESSAGES],
}

impl Reader<'_> {
    fn at(&self, column: Column, id: u32) -> u32 {
        self.words[column.0 + id as usize]
    }

    /// A number of things. It bounds every walk, so it is judged before the picture is.
    fn count(&self, (entry, most): (u32, u32)) -> Result<u32, Breach> {
        let count = self.at(SYSTEM, entry);
        if count <= most {
            Ok(count)
        } else {
            Err(Breach::number("a count"))
        }
    }

    fn entries(&self, column: Column, count: u32) -> Vec<u32> {
        (1..=count).map(|id| self.at(column, id)).collect()
    }

    /// Pattern and mode are a flag wait's alone, ticks a timed wait's, the object an object wait's.
    fn wait(&self, id: u32) -> Result<Wait, Breach> {
        let object = self.at(OBJECT, id);
        match self.at(KIND, id) {
            0 => Ok(Wait::Asleep),
            1 => Ok(Wait::Timed(self.at(TICKS, id))),
            2 => Ok(Wait::On(Object::Semaphore(object), 0, 0)),
            3 => Ok(Wait::On(
                Object::Flag(object),
                self.at(WISH, id),
                self.at(MODE, id),
            )),
            4 => Ok(Wait::On(Object::Mailbox(object), 0, 0)),
            5 => Ok(Wait::On(Object::Pool(object), 0, 0)),
            _ => Err(Breach::number("a wait's kind")),
        }
    }

    fn standing(&self, id: u32) -> Result<Standing, Breach> {
        match self.at(STATUS, id) {
            0 => Ok(Standing::Dormant),
            1 => Ok(Standing::Ready),
            3 => Ok(Standing::Wait(self.wait(id)?)),
            4 => Ok(Standing::Suspend),
            5 => Ok(Standing::WaitSuspend(self.wait(id)?)),
            6 => Ok(Standing::Absent),
            _ => Err(Breach::number("a task's state")),
        }
    }

    fn task(&self, id: u32) -> Result<Task, Breach> {
        let code = *CELL_CODES
            .get(self.at(CODE, id) as usize)
            .ok_or(Breach::number("a cell's code"))?;
        Ok(Task {
            start: self.at(START, id),
            priority: self.at(PRIORITY, id),
            standing: self.standing(id)?,
            wakeups: self.at(WAKEUPS, id),
            cell: (code, self.at(WORD, id)),
        })
    }

    /// Whether each block is free; a mark beyond the pool's blocks is damage.
    fn pool(&self, id: u32) -> Result<Vec<bool>, Breach> {
        let (size, free) = (self.at(SIZE, id), u64::from(self.at(FREE, id)));
        if size > 32 || free >> size != 0 {
            return Err(Breach::number("a pool's blocks"));
        }
        Ok((0..size).map(|block| free >> block & 1 == 1).collect())
    }

    /// What the forward links list from an anchor on, back to it. A node that is no id of 1 to `count` is the last one listed, and so is
    /// entry `count` + 1: a walk that does not come back lists somebody twice.
    fn queue(&self, links: Links, anchor: u32, count: u32) -> Vec<u32> {
        let mut listed = Vec::new();
        let mut node = self.at(links.next, anchor);
        while node != anchor && listed.len() <= count as usize {
            listed.push(node);
            if node == 0 || node > count {
                break;
            }
            node = self.at(links.next, node);
        }
        listed
    }

    fn queues(&self, links: Links, anchors: u32, many: u32, count: u32) -> Queues {
        (1..=many)
            .map(|id| self.queue(links, anchors + id, count))
            .collect()
    }

    /// The free blocks of a pool. The nodes of all pools are ids; one of an earlier pool is shown as 0, one of a later pool is too great.
    fn free(&self, pool: u32, pools: u32) -> Vec<u32> {
        let nodes = self.queue(BLOCK_LINKS, FREE_ANCHORS + pool, POOL_NODES * pools);
        let block = |node: u32| node.saturating_sub(nodes_before(pool));
        nodes.into_iter().map(block).collect()
    }

    /// With no handler open the word is no part of the state.
    fn interrupted(&self) -> Option<u32> {
        let task = self.at(HANDLING, INTERRUPTED);
        (self.at(HANDLING, DEPTH) > 0 && task != 0).then_some(task)
    }

    /// A due of 0 is an idle alarm, whose period is no part of the state; any other is one more than the expiry.
    fn alarm(&self, id: u32) -> Result<Alarm, Breach> {
        let wakes = match self.at(ALARM_WAKES, id) {
            0 => Ok(false),
            1 => Ok(true),
            _ => Err(Breach::number(ALARM_ACT_RULE)),
        };
        let due = self.at(ALARM_DUE, id).checked_sub(1);
        Ok(Alarm {
            task: self.at(ALARM_TASK, id),
            wakes: wakes?,
            // without its sign; what is too great for a code is none of them
            kept: self.at(ALARM_KEPT, id).wrapping_neg() as i32,
            due: due.map(|expiry| Due {
                expiry,
                period: self.at(ALARM_PERIOD, id),
            }),
        })
    }

    /// Without a counter nothing of the alarms is part of the state.
    fn counter(&self) -> Result<Option<Counter>, Breach> {
        let size = self.at(COUNTER, COUNTER_SIZE);
        if size == 0 {
            return Ok(None);
        }
        let alarms = (1..=ALARMS as u32).map(|id| self.alarm(id));
        let alarms = alarms.collect::<Result<Vec<Alarm>, _>>()?;
        Ok(Some(Counter {
            size,
            present: self.at(COUNTER, PRESENT),
            alarms: std::array::from_fn(|i| alarms[i]),
        }))
    }

    /// What the memory shows, unless a number says nothing at all.
    fn picture(&self) -> Result<Picture, Breach> {
        let tasks = self.count(TASKS)?;
        let messages = self.count(MAILS)?;
        let priorities = self.count(PRIORITIES)?;
        let (semaphores, flags) = (self.count(SEMAPHORES)?, self.count(FLAGS)?);
        let (mailboxes, pools) = (self.count(MAILBOXES)?, self.count(POOLS)?);
        let of_tasks = |anchors, many| self.queues(TASK_LINKS, anchors, many, tasks);
        Ok(Picture {
            priorities,
            tasks: (1..=tasks)
                .map(|id| self.task(id))
                .collect::<Result<_, _>>()?,
            semaphores: self.entries(SEMAPHORE, semaphores),
            flags: self.entries(FLAG, flags),
            mailboxes,
            messages: self.messages[..messages as usize].to_vec(),
            pools: (1..=pools)
                .map(|id| self.pool(id))
                .collect::<Result<_, _>>()?,
            clock: u64::from(self.at(SYSTEM, CLOCK_HIGH)) << 32
                | u64::from(self.at(SYSTEM, CLOCK_LOW)),
            depth: self.at(HANDLING, DEPTH),
            interrupted: self.interrupted(),
            ready: of_tasks(READY_ANCHORS, priorities),
            semaphore_waiters: of_tasks(SEMAPHORE_ANCHORS, semaphores),
            flag_waiters: of_tasks(FLAG_ANCHORS, flags),
            mailbox_waiters: of_tasks(MAILBOX_ANCHORS, mailboxes),
            pool_waiters: of_tasks(POOL_ANCHORS, pools),
            mail: self.queues(MAIL_LINKS, MAIL_ANCHORS, mailboxes, messages),
            free: (1..=pools).map(|pool| self.free(pool, pools)).collect(),
            counter: self.counter()?,
        })
    }
}

// ---- where the layout can disagree with itself

impl Reader<'_> {
    /// Backwards the links lead through a queue as they do forwards, from its anchor and back to it.
    fn goes_back(&self, links: Links, anchor: u32, queue: &[u32]) -> bool {
        let nodes = queue.iter().copied().chain([anchor]);
        let before = [anchor].into_iter().chain(queue.iter().copied());
        nodes
            .zip(before)
            .all(|(node, before)| self.at(links.prev, node) == before)
    }

    fn go_back(&self, links: Links, anchors: u32, queues: &Queues) -> bool {
        (anchors + 1..)
            .zip(queues)
            .all(|(anchor, queue)| self.goes_back(links, anchor, queue))
    }

    /// A node that stands in no queue leads nowhere; its backward link is no part of the state.
    fn rest_unlinked(&self, links: Links, count: u32, queues: &[&Queues]) -> bool {
        (1..=count).all(|id| {
            let stands = queues
                .iter()
                .any(|kind| kind.iter().any(|queue| queue.contains(&id)));
            stands || self.at(links.next, id) == 0
        })
    }

    /// Of a picture that is sound: what of the memory says once more what its queues say.
    fn agrees(&self, p: &Picture) -> Result<(), Breach> {
        let free = free_nodes(p);
        let kinds = [
            (TASK_LINKS, READY_ANCHORS, &p.ready),
            (TASK_LINKS, SEMAPHORE_ANCHORS, &p.semaphore_waiters),
            (TASK_LINKS, FLAG_ANCHORS, &p.flag_waiters),
            (TASK_LINKS, MAILBOX_ANCHORS, &p.mailbox_waiters),
            (TASK_LINKS, POOL_ANCHORS, &p.pool_waiters),
            (MAIL_LINKS, MAIL_ANCHORS, &p.mail),
            (BLOCK_LINKS, FREE_ANCHORS, &free),
        ];
        let back = kinds
            .iter()
            .all(|(links, anchors, queues)| self.go_back(*links, *anchors, queues));
        let (tasks, messages) = (p.tasks.len() as u32, p.messages.len() as u32);
        let rest = self.rest_unlinked(TASK_LINKS, tasks, &p.task_queues())
            && self.rest_unlinked(MAIL_LINKS, messages, &[&p.mail])
            && self.rest_unlinked(BLOCK_LINKS, block_nodes(p), &[&free]);
        let marked = self.at(NONEMPTY, 0) == nonempty(&p.ready);
        match (back, rest, marked) {
            (false, _, _) => Err(Breach::number(BACKWARD_RULE)),
            (_, false, _) => Err(Breach::number(UNLINKED_RULE)),
            (_, _, false) => Err(Breach::number(NONEMPTY_RULE)),
            _ => Ok(()),
        }
    }
}

/// The nodes of all pools.
fn block_nodes(p: &Picture) -> u32 {
    POOL_NODES * p.pools.len() as u32
}

/// The queues of free blocks as the memory has them.
pub fn free_nodes(p: &Picture) -> Queues {
    let nodes = |(pool, queue): (u32, &Vec<u32>)| {
        let node = |block: &u32| nodes_before(pool) + block;
        queue.iter().map(node).collect()
    };
    (1..).zip(&p.free).map(nodes).collect()
}

fn reader(state: &State) -> Reader<'_> {
    Reader {
        words: state.words(),
        messages: state.messages(),
    }
}

/// What a memory shows, sound or not, unless a number says nothing at all.
pub fn seen(state: &State) -> Result<Picture, Breach> {
    reader(state).picture()
}

/// The sound state that a kernel's memory shows; else the first rule broken, at the smallest id: numbers, tasks in queues, waiters,
/// messages, free blocks, and then what the layout says twice.
pub fn shown(state: &State) -> Result<Picture, Breach> {
    let picture = seen(state)?;
    picture.sound()?;
    reader(state).agrees(&picture)?;
    Ok(picture)
}

struct Writer {
    words: [u32; STATE_WORDS],
}

impl Writer {
    fn put(&mut self, column: Column, id: u32, word: u32) {
        self.words[column.0 + id as usize] = word;
    }

    fn put_all(&mut self, column: Column, words: &[u32]) {
        for (id, word) in (1..).zip(words) {
            self.put(column, id, *word);
        }
    }

    fn wait(&mut self, id: u32, wait: Wait) {
        let (kind, object) = match wait {
            Wait::Asleep => (0, None),
            Wait::Timed(_) => (1, None),
            Wait::On(Object::Semaphore(on), _, _) => (2, Some(on)),
            Wait::On(Object::Flag(on), _, _) => (3, Some(on)),
            Wait::On(Object::Mailbox(on), _, _) => (4, Some(on)),
            Wait::On(Object::Pool(on), _, _) => (5, Some(on)),
        };
        self.put(KIND, id, kind);
        if let Some(on) = object {
            self.put(OBJECT, id, on);
        }
        match wait {
            Wait::Timed(left) => self.put(TICKS, id, left),
            Wait::On(Object::Flag(_), wish, mode) => {
                self.put(WISH, id, wish);
                self.put(MODE, id, mode);
            }
            _ => {}
        }
    }

    fn task(&mut self, id: u32, task: &Task) {
        let status = match task.standing {
            Standing::Dormant => 0,
            Standing::Ready => 1,
            Standing::Wait(_) => 3,
            Standing::Suspend => 4,
            Standing::WaitSuspend(_) => 5,
            Standing::Absent => 6,
        };
        self.put(STATUS, id, status);
        self.put(START, id, task.start);
        self.put(PRIORITY, id, task.priority);
        self.put(WAKEUPS, id, task.wakeups);
        let code = CELL_CODES.iter().position(|code| *code == task.cell.0);
        self.put(CODE, id, code.expect("a sound cell's code") as u32);
        self.put(WORD, id, task.cell.1);
        if let Some(wait) = task.standing.wait() {
            self.wait(id, wait);
        }
    }

    fn pool(&mut self, id: u32, free: &[bool]) {
        let marks = free
            .iter()
            .rev()
            .fold(0, |marks, free| marks << 1 | u32::from(*free));
        self.put(SIZE, id, free.len() as u32);
        self.put(FREE, id, marks);
    }

    fn queues(&mut self, links: Links, anchors: u32, queues: &Queues) {
        for (anchor, queue) in (anchors + 1..).zip(queues) {
            let mut before = anchor;
            for node in queue.iter().copied().chain([anchor]) {
                self.put(links.next, before, node);
                self.put(links.prev, node, before);
                before = node;
            }
        }
    }

    fn system(&mut self, p: &Picture) {
        self.put(SYSTEM, PRIORITIES.0, p.priorities);
        self.put(SYSTEM, TASKS.0, p.tasks.len() as u32);
        self.put(SYSTEM, SEMAPHORES.0, p.semaphores.len() as u32);
        self.put(SYSTEM, FLAGS.0, p.flags.len() as u32);
        self.put(SYSTEM, MAILBOXES.0, p.mailboxes);
        self.put(SYSTEM, MAILS.0, p.messages.len() as u32);
        self.put(SYSTEM, POOLS.0, p.pools.len() as u32);
        self.put(SYSTEM, CLOCK_LOW, p.clock as u32);
        self.put(SYSTEM, CLOCK_HIGH, (p.clock >> 32) as u32);
    }

    /// With no handler open the second word is no part of the state.
    fn handling(&mut self, p: &Picture) {
        self.put(HANDLING, DEPTH, p.depth);
        if p.depth > 0 {
            self.put(HANDLING, INTERRUPTED, p.interrupted.unwrap_or(0));
        }
    }

    /// The period of an idle alarm, and all of the alarms where there is no counter, are no part of the state.
    fn counter(&mut self, counter: Option<&Counter>) {
        self.put(COUNTER, COUNTER_SIZE, counter.map_or(0, |all| all.size));
        let Some(counter) = counter else {
            return;
        };
        self.put(COUNTER, PRESENT, counter.present);
        for (id, alarm) in (1..).zip(&counter.alarms) {
            self.put(ALARM_TASK, id, alarm.task);
            self.put(ALARM_WAKES, id, u32::from(alarm.wakes));
            self.put(ALARM_KEPT, id, alarm.kept.unsigned_abs());
            self.put(ALARM_DUE, id, alarm.due.map_or(0, |due| due.expiry + 1));
            if let Some(due) = alarm.due {
                self.put(ALARM_PERIOD, id, due.period);
            }
        }
    }

    fn links(&mut self, p: &Picture) {
        for id in 1..=p.tasks.len() as u32 {
            self.put(TASK_LINKS.next, id, 0);
        }
        for id in 1..=p.messages.len() as u32 {
            self.put(MAIL_LINKS.next, id, 0);
        }
        for node in 1..=block_nodes(p) {
            self.put(BLOCK_LINKS.next, node, 0);
        }
        self.put(NONEMPTY, 0, nonempty(&p.ready));
        self.queues(TASK_LINKS, READY_ANCHORS, &p.ready);
        self.queues(TASK_LINKS, SEMAPHORE_ANCHORS, &p.semaphore_waiters);
        self.queues(TASK_LINKS, FLAG_ANCHORS, &p.flag_waiters);
        self.queues(TASK_LINKS, MAILBOX_ANCHORS, &p.mailbox_waiters);
        self.queues(TASK_LINKS, POOL_ANCHORS, &p.pool_waiters);
        self.queues(MAIL_LINKS, MAIL_ANCHORS, &p.mail);
        self.queues(BLOCK_LINKS, FREE_ANCHORS, &free_nodes(p));
    }
}

/// A memory that shows the picture, with `any` words wherever a word is no part of it.
pub fn drawn(p: &Picture, mut any: impl FnMut() -> u32) -> State {
    let mut w = Writer {
        words: std::array::from_fn(|_| any()),
    };
    let mut messages = std::array::from_fn(|_| any());
    w.system(p);
    w.handling(p);
    for (id, task) in (1..).zip(&p.tasks) {
        w.task(id, task);
    }
    w.put_all(SEMAPHORE, &p.semaphores);
    w.put_all(FLAG, &p.flags);
    for (id, free) in (1..).zip(&p.pools) {
        w.pool(id, free);
    }
    messages[..p.messages.len()].copy_from_slice(&p.messages);
    w.counter(p.counter.as_ref());
    w.links(p);
    State::of(w.words, messages)
}

/// The memory with one bit of the word of nonempty ready queues changed.
pub fn with_ready_bit_changed(state: &State, bit: u32) -> State {
    let mut words = *state.words();
    words[NONEMPTY.0] ^= 1 << bit;
    State::of(words, *state.messages())
}

/// The memory with the forward link of a node leading elsewhere.
pub fn with_next(state: &State, links: Links, node: u32, to: u32) -> State {
    let mut w = Writer {
        words: *state.words(),
    };
    w.put(links.next, node, to);
    State::of(w.words, *state.messages())
}

/// The memory with any depth and interrupted task.
pub fn with_handling(state: &State, depth: u32, interrupted: u32) -> State {
    let mut w = Writer {
        words: *state.words(),
    };
    w.put(HANDLING, DEPTH, depth);
    w.put(HANDLING, INTERRUPTED, interrupted);
    State::of(w.words, *state.messages())
}
