//! The peer's state beside the plain kernel's, and what it tells of a damaged one.
use super::*;
use crate::picture::{self, Breach, Due, Object, Picture, Queues, Standing, Wait, DAMAGE_CODES};
use crate::picture::{H_FREE, H_NUMBER, H_QUEUE, H_SERVED, H_TWICE};
use crate::plain::Plain;
use crate::random::Random;
use crate::recording;
use crate::script::{self, Author, SIZES};
use crate::setup::{self, Setup};
use okrozumba::task_state::*;

const RUNS: u64 = 200;
const EVENTS: u32 = 500;
const DAMAGED: u64 = 30_000;
const ABSENT: u32 = 6;
const GET_TID: Five = [1, 26, 0, 0, 0];

fn drawn(seed: u64) -> (Random, Setup) {
    let mut random = Random::new(seed);
    let setup = script::setup(&mut random, SIZES[seed as usize % SIZES.len()]);
    (random, setup)
}

fn started(setup: &Setup) -> Peer {
    Peer::start(&setup::bytes(setup)).unwrap()
}

// ---- pictures

fn address<T>(of: &T) -> usize {
    std::ptr::from_ref(of).addr()
}

impl State {
    /// Of damaged queues too: what is no task is the last one listed, as 0, and so is entry n + 1.
    fn listed(&self, q: &Queue) -> Vec<u32> {
        let mut ids = Vec::new();
        let mut node = q.next;
        while node != address(q) && ids.len() <= self.tasks as usize {
            let task = (1..=self.tasks).find(|id| node == address(&self.task[*id as usize]));
            ids.push(task.unwrap_or(0));
            let Some(id) = task else { break };
            node = self.task[id as usize].node.next;
        }
        ids
    }

    fn mail(&self, mailbox: &Mailbox) -> Vec<u32> {
        let onward = |j: &u32| {
            (*j <= self.messages && *j as usize <= MESSAGES)
                .then(|| u32::from(self.next[*j as usize]))
        };
        let all = std::iter::successors(Some(mailbox.first), onward);
        all.take_while(|j| *j != 0)
            .take(self.messages as usize + 1)
            .collect()
    }

    fn wait(&self, task: &Task) -> Wait {
        match task.kind {
            0 => Wait::Asleep,
            1 => Wait::Timed(task.due.wrapping_sub(self.clock as u32)),
            2 => Wait::On(Object::Semaphore(task.object), 0, 0),
            3 => Wait::On(Object::Flag(task.object), task.wish, task.mode),
            4 => Wait::On(Object::Mailbox(task.object), 0, 0),
            _ => Wait::On(Object::Pool(task.object), 0, 0),
        }
    }

    fn task(&self, task: &Task) -> picture::Task {
        picture::Task {
            start: task.start,
            priority: task.priority,
            standing: match task.status {
                DORMANT => Standing::Dormant,
                READY => Standing::Ready,
                SUSPEND => Standing::Suspend,
                WAIT => Standing::Wait(self.wait(task)),
                ABSENT => Standing::Absent,
                _ => Standing::WaitSuspend(self.wait(task)),
            },
            wakeups: task.wakeups,
            cell: (task.code, task.word),
        }
    }

    fn counter(&self) -> picture::Counter {
        let alarm = |i: usize| {
            let from = &self.alarm[i];
            picture::Alarm {
                task: from.task,
                wakes: from.wakes != 0,
                kept: from.kept,
                due: (self.used >> i & 1 != 0).then_some(Due {
                    expiry: from.expiry,
                    period: from.period,
                }),
            }
        };
        picture::Counter {
            size: self.round,
            present: self.present,
            alarms: std::array::from_fn(alarm),
        }
    }

    fn picture(&self) -> Picture {
        let tasks = &self.task[1..=self.tasks as usize];
        let semaphores = &self.semaphore[..self.semaphores as usize];
        let flags = &self.flag[..self.flags as usize];
        let mailboxes = &self.mailbox[..self.mailboxes as usize];
        let pools = &self.pool[..self.pools as usize];
        let marks = |p: &Pool| (0..p.blocks).map(|b| p.free >> b & 1 == 1).collect();
        let line = |p: &Pool| {
            let at = |i| p.line[(p.head + i) as usize % BLOCKS];
            (0..p.count).map(|i| u32::from(at(i)) + 1).collect()
        };
        let interrupted = self.depth > 0 && self.running > 0;
        Picture {
            priorities: self.priorities,
            tasks: tasks.iter().map(|t| self.task(t)).collect(),
            semaphores: semaphores.iter().map(|s| s.word).collect(),
            flags: flags.iter().map(|f| f.word).collect(),
            mailboxes: self.mailboxes,
            messages: self.lies_in[1..=self.messages as usize]
                .iter()
                .map(|m| u32::from(*m))
                .collect(),
            pools: pools.iter().map(marks).collect(),
            clock: self.clock,
            depth: self.depth,
            interrupted: interrupted.then_some(self.running),
            ready: self.ready_queue[..self.priorities as usize]
                .iter()
                .map(|q| self.listed(q))
                .collect(),
            semaphore_waiters: semaphores.iter().map(|s| self.listed(&s.waiters)).collect(),
            flag_waiters: flags.iter().map(|f| self.listed(&f.waiters)).collect(),
            mailbox_waiters: mailboxes.iter().map(|m| self.listed(&m.waiters)).collect(),
            pool_waiters: pools.iter().map(|p| self.listed(&p.waiters)).collect(),
            mail: mailboxes.iter().map(|m| self.mail(m)).collect(),
            free: pools.iter().map(line).collect::<Queues>(),
            counter: (self.round != 0).then(|| self.counter()),
        }
    }
}

/// A fresh state at such a time, and the plain kernel that stands so.
fn at_time(setup: &Setup, clock: u64) -> (Peer, Plain) {
    let mut peer = started(setup);
    peer.state_mut().clock = clock;
    let plain = Plain::standing(&peer.state().picture());
    (peer, plain)
}

/// Random runs, also over the ends of the clock and of its low word: the same answers, and after each event the same state, which a copy
/// has too.
#[test]
fn states_are_the_plain_kernels() {
    for seed in 0..RUNS {
        let (mut random, setup) = drawn(seed);
        let end = random.pick(&[0, 1 << 32, 1 << 48, 1 << 31]);
        let clock = u64::saturating_sub(end, u64::from(random.below(20)) + 1);
        let (mut peer, mut plain) = at_time(&setup, clock);
        let mut author = Author::default();
        for _ in 0..EVENTS {
            let five = recording::words(author.event(&mut random, &plain));
            let answer = plain.event(recording::event(five));
            assert_eq!(peer.checked_event(&five), answer, "seed {seed}, {five:?}");
            assert_eq!(peer.state().picture(), plain.picture(), "{five:?}");
        }
        let copy = peer.clone();
        drop(peer);
        assert_eq!(copy.state().picture(), plain.picture());
    }
}

// ---- damage

/// The code and the id, if the state is damaged.
fn told(peer: &mut Peer) -> Option<(i32, u32)> {
    let Answer {
        code,
        w1,
        w2,
        running,
        released,
    } = peer.checked_event(&GET_TID);
    let damaged = DAMAGE_CODES.contains(&code);
    assert!(!damaged || (w2, running, released) == (0, 0, 0));
    damaged.then_some((code, w1))
}

/// A full state in which 1 waits for flag 1, a message lies in mailbox 1, somebody waits for a time, alarm 1 is set and `running` runs.
fn busy() -> Peer {
    let mut setup = script::setup(&mut Random::new(2), SIZES[2]);
    setup.tasks.fill((3, true));
    setup.flags[0] = 0;
    setup.counter.as_mut().unwrap().size = 9;
    setup.counter.as_mut().unwrap().alarms[0].1 = true;
    let mut peer = started(&setup);
    for event in [
        [0, 18, 1, i32::MIN, 0],
        [0, 20, 1, 7, 0],
        [0, 10, 9, 0, 0],
        [0, 37, 1, 2, 1],
        [0, 20, 1, 5, 0],
    ] {
        assert!(peer.event(&event).code >= 0);
    }
    assert_eq!(told(&mut peer), None);
    peer
}

/// The check sees damage of each kind, and tells its code and id.
#[test]
fn damage_is_found() {
    type Damage = fn(&mut State);
    let damages: [(Damage, i32, u32); 59] = [
        (|k| k.priorities = 17, H_NUMBER, 0),
        (|k| k.tasks = 33, H_NUMBER, 0),
        (|k| k.semaphores = 17, H_NUMBER, 0),
        (|k| k.flags = u32::MAX, H_NUMBER, 0),
        (|k| k.mailboxes = 17, H_NUMBER, 0),
        (|k| k.messages = 257, H_NUMBER, 0),
        (|k| k.pools = 9, H_NUMBER, 0),
        (|k| k.clock = 1 << 48, H_NUMBER, 0),
        (|k| k.ready ^= 1 << 3, H_NUMBER, 0),
        (|k| k.ready ^= 1 << 16, H_NUMBER, 0),
        (|k| k.timed ^= 1, H_NUMBER, 0),
        (|k| k.soonest += 1, H_NUMBER, 0),
        (|k| k.soonest = k.clock as u32, H_NUMBER, 0),
        (|k| k.semaphore[0].word = 65536, H_NUMBER, 0),
        (|k| k.pool[0].blocks = 33, H_NUMBER, 0),
        (|k| k.pool[0].head = 32, H_NUMBER, 0),
        (|k| k.pool[0].line[0] = 32, H_NUMBER, 0),
        (|k| k.pool[1].line[0] ^= 1, H_FREE, 2),
        (|k| k.pool[1].count -= 1, H_FREE, 2),
        (|k| k.pool[7].free &= !1, H_FREE, 8),
        (|k| k.lies_in[7] = 2, H_NUMBER, 0),
        (|k| k.lies_in[200] = 1, H_NUMBER, 0),
        (|k| k.lies_in[200] = 17, H_NUMBER, 0),
        (|k| k.next[5] = 7, H_TWICE, 5),
        (|k| k.next[5] = 257, H_NUMBER, 0),
        (|k| k.mailbox[0].last = 7, H_NUMBER, 0),
        (|k| k.mailbox[1].first = 5, H_TWICE, 5),
        (|k| k.mailbox[1].first = 9, H_NUMBER, 0),
        (|k| k.task[3].node.next = 0, H_NUMBER, 0),
        (
            |k| k.task[3].node.next = address(&k.task[3]) + 8,
            H_NUMBER,
            0,
        ),
        (|k| k.task[3].node.prev = 0, H_NUMBER, 0),
        (|k| k.task[0].node.prev = 0, H_NUMBER, 0),
        (|k| k.task[0].node.next = 0, H_NUMBER, 0),
        (|k| k.ready_queue[16].prev = 0, H_NUMBER, 0),
        (|k| k.ready_queue[16].next = 0, H_NUMBER, 0),
        (|k| k.ready_queue[2].prev = 0, H_NUMBER, 0),
        (|k| k.flag[1].waiters.prev = 0, H_NUMBER, 0),
        (|k| k.mailbox[0].waiters.prev = 0, H_NUMBER, 0),
        (|k| k.mailbox[1].waiters.prev = 0, H_NUMBER, 0),
        (|k| k.task[3].node.next = address(&k.task[3]), H_QUEUE, 3),
        (|k| k.task[3].wakeups = 16, H_NUMBER, 0),
        (|k| k.task[3].status = SUSPEND, H_QUEUE, 3),
        (|k| k.task[3].status = ABSENT, H_NUMBER, 0),
        (|k| k.task[3].status = RUN, H_NUMBER, 0),
        (|k| k.task[3].start = 0, H_NUMBER, 0),
        (|k| k.task[3].code = 7, H_NUMBER, 0),
        (|k| k.task[1].object = 2, H_QUEUE, 1),
        (|k| k.task[1].kind = 6, H_NUMBER, 0),
        (|k| k.flag[0].word = 1 << 31, H_SERVED, 1),
        (|k| k.running = 0, H_NUMBER, 0),
        (|k| k.depth = 16, H_NUMBER, 0),
        (|k| k.round = 65536, H_NUMBER, 0),
        (|k| k.present = k.round, H_NUMBER, 0),
        (|k| k.used |= 1 << 8, H_NUMBER, 0),
        (|k| k.until = 3, H_NUMBER, 0),
        (|k| k.until = 0, H_NUMBER, 0),
        (|k| k.alarm[7].task = 0, H_NUMBER, 0),
        (|k| k.alarm[0].kept = -3, H_NUMBER, 0),
        (|k| k.alarm[0].expiry = k.round, H_NUMBER, 0),
    ];
    for (i, (damage, code, id)) in damages.into_iter().enumerate() {
        let mut peer = busy();
        damage(peer.state_mut());
        assert_eq!(told(&mut peer), Some((code, id)), "damage {i}");
    }
}

/// The address of a task's node or of an anchor, or one of no node.
fn somewhere(random: &mut Random, k: &State) -> usize {
    match random.below(8) {
        0 => random.long() as usize,
        1 => 0,
        2 => address(&k.ready_queue[random.below(17) as usize]),
        3 => address(&k.semaphore[random.below(16) as usize]),
        4 => address(&k.task[random.below(33) as usize]) + 4,
        _ => address(&k.task[random.within(0, k.tasks) as usize]),
    }
}

fn queue<'a>(random: &mut Random, k: &'a mut State) -> &'a mut Queue {
    match random.below(8) {
        0 => &mut k.ready_queue[random.below(k.priorities) as usize],
        1 => &mut k.semaphore[random.below(16) as usize].waiters,
        2 => &mut k.flag[random.below(16) as usize].waiters,
        3 => &mut k.mailbox[random.below(16) as usize].waiters,
        4 => &mut k.pool[random.below(8) as usize].waiters,
        _ => &mut k.task[random.below(k.tasks + 1) as usize].node,
    }
}

fn delete(task: &mut Task) {
    task.status = ABSENT;
    task.priority = 0;
    task.start = 0;
    task.wakeups = 0;
    (task.code, task.word) = (0, 0);
}

/// One change of what a picture shows, or of a link.
fn hurt(random: &mut Random, k: &mut State) {
    let t = random.within(1, k.tasks) as usize;
    let any_object = random.below(16);
    // the low ones are in use more often
    let most = random.pick(&[4, k.messages.min(20), k.messages]);
    let j = random.below(most.min(k.messages) + 1) as usize;
    let message = random.below(most.min(k.messages) + 2);
    let m = random.pick(&[0, 0, 1, any_object]) as usize;
    let to = somewhere(random, k);
    let pool = random.below(8) as usize;
    let alarm = random.below(8) as usize;
    match random.below(25) {
        0..=1 => queue(random, k).next = to,
        2 => queue(random, k).prev = to,
        3 => k.next[j] = message as u16,
        4 => k.mailbox[m].first = message,
        5 => k.mailbox[m].last = message,
        6 => k.task[t].status = random.pick(&[DORMANT, READY, WAIT, SUSPEND, WAIT_SUSPEND, ABSENT]),
        7 => k.task[t].priority = random.below(k.priorities + 2),
        8 => k.task[t].object = random.below(18),
        9 => k.semaphore[m].word = random.pick(&[0, 1, 65535, 65536]),
        10 => k.flag[m].word = random.word(),
        11 => k.lies_in[j] = random.below(18) as u8,
        12 => k.pool[pool].line[random.below(32) as usize] = random.below(34) as u8,
        13 => k.pool[pool].free ^= 1 << random.below(k.pool[pool].blocks.max(1)),
        14 => k.pool[pool].head = random.below(32),
        15 => k.pool[pool].count = random.below(33),
        16 => delete(&mut k.task[t]),
        17 => k.round = random.pick(&[0, 1, k.round + 1, 65535, 65536]),
        18 => k.present = random.pick(&[0, k.round, k.round.wrapping_sub(1)]),
        19 => k.alarm[alarm].kept = random.pick(&[0, -3, -2100, -2101, -2889, -3413, 1]),
        20 => k.alarm[alarm].expiry = random.below(k.round + 2),
        21 => k.task[t].kind = random.below(6),
        22 => k.task[t].due = random.pick(&[k.clock as u32, k.soonest, to as u32]),
        23 => k.alarm[alarm].task = random.below(34),
        _ => k.depth = random.below(17),
    }
}

/// A damaged state tells what the second decision says of its picture. What only the peer knows (backward links, masks, who runs, when to
/// look next) comes behind: where the picture is sound it is a breach with no code of its own.
#[test]
fn damage_is_named() {
    let mut times = DAMAGE_CODES.map(|code| (code, 0));
    let mut sound = 0;
    for seed in 0..DAMAGED {
        let (mut random, setup) = drawn(seed);
        let mut peer = started(&setup);
        let mut author = Author::default();
        let mut plain = Plain::fresh(&setup);
        for _ in 0..random.below(200) {
            let five = recording::words(author.event(&mut random, &plain));
            plain.event(recording::event(five));
            peer.event(&five);
        }
        for _ in 0..random.within(1, 3) {
            hurt(&mut random, peer.state_mut());
        }
        let second = peer.state().picture().sound();
        let Some(told) = told(&mut peer) else {
            assert_eq!(second, Ok(()), "seed {seed}");
            sound += 1;
            continue;
        };
        let breach = second.err().unwrap_or(Breach::number("the peer"));
        assert_eq!(told, (breach.code, breach.id), "{breach}, seed {seed}");
        for (code, times) in &mut times {
            *times += u32::from(*code == breach.code);
        }
    }
    assert!(
        sound > 100 && times.iter().all(|(_, times)| *times > 100),
        "{sound} {times:?}"
    );
}
