//! Random sound states, also those that no short run reaches: the clock at its end, full counts, any order in any queue.
use crate::picture::{
    meets, Alarm, Counter, Due, Object, Picture, Queues, Standing, Task, Wait, ABSENT, CLOCK_END,
    TICKS_MOST,
};
use crate::random::Random;
use crate::setup::{self, Setup};

fn clock(random: &mut Random) -> u64 {
    match random.below(4) {
        0 => CLOCK_END - 1 - u64::from(random.below(3)),
        1 => u64::from(u32::MAX) - u64::from(random.below(3)),
        2 => random.long() % CLOCK_END,
        _ => 0,
    }
}

fn ticks(random: &mut Random) -> u32 {
    match random.below(3) {
        0 => TICKS_MOST - random.below(3),
        1 => random.within(1, TICKS_MOST),
        _ => random.within(1, 3),
    }
}

/// Crowded: the low ids more often than the others.
fn id(random: &mut Random, count: u32) -> u32 {
    let most = if random.percent(60) {
        count.min(2)
    } else {
        count
    };
    random.within(1, most)
}

fn wish(random: &mut Random) -> u32 {
    match random.below(3) {
        0 => random.word().max(1),
        _ => 1 << random.below(32),
    }
}

fn wait(random: &mut Random, setup: &Setup) -> Wait {
    let (semaphores, flags) = (setup.semaphores.len() as u32, setup.flags.len() as u32);
    let pools = setup.pools.len() as u32;
    match random.below(6) {
        1 => Wait::Timed(ticks(random)),
        2 if semaphores > 0 => Wait::On(Object::Semaphore(id(random, semaphores)), 0, 0),
        3 if flags > 0 => Wait::On(
            Object::Flag(id(random, flags)),
            wish(random),
            random.below(4),
        ),
        4 if setup.mailboxes > 0 => Wait::On(Object::Mailbox(id(random, setup.mailboxes)), 0, 0),
        5 if pools > 0 => Wait::On(Object::Pool(id(random, pools)), 0, 0),
        _ => Wait::Asleep,
    }
}

fn standing(random: &mut Random, setup: &Setup) -> Standing {
    match random.below(8) {
        0 => Standing::Dormant,
        1 | 2 => Standing::Ready,
        3 => Standing::Suspend,
        4 => Standing::WaitSuspend(wait(random, setup)),
        _ => Standing::Wait(wait(random, setup)),
    }
}

fn cell(random: &mut Random) -> (i32, u32) {
    match random.below(4) {
        0 => (-3413, 0),
        1 => (-3414, 0),
        2 => (0, 0),
        _ => (0, random.word()),
    }
}

fn task(random: &mut Random, setup: &Setup) -> Task {
    if random.percent(10) {
        return ABSENT;
    }
    let standing = standing(random, setup);
    let start = random.within(1, setup.priorities);
    let dormant = standing == Standing::Dormant;
    let priority = if dormant {
        start
    } else {
        random.within(1, setup.priorities)
    };
    let stored = if dormant || standing.asleep() {
        0
    } else {
        random.below(16)
    };
    Task {
        start,
        priority,
        standing,
        wakeups: stored,
        cell: cell(random),
    }
}

fn shuffled(random: &mut Random, mut ids: Vec<u32>) -> Vec<u32> {
    for end in (1..ids.len()).rev() {
        ids.swap(end, random.below(end as u32 + 1) as usize);
    }
    ids
}

fn members(random: &mut Random, tasks: &[Task], member: impl Fn(&Task) -> bool) -> Vec<u32> {
    let stand = (1..).zip(tasks).filter(|(_, task)| member(task));
    let ids = stand.map(|(id, _)| id).collect();
    shuffled(random, ids)
}

fn waiters(random: &mut Random, tasks: &[Task], many: usize, object: fn(u32) -> Object) -> Queues {
    let on = |task: &Task, id| matches!(task.standing.wait(), Some(Wait::On(on, _, _)) if on == object(id));
    (1..=many as u32)
        .map(|id| members(random, tasks, |task| on(task, id)))
        .collect()
}

fn semaphore(random: &mut Random, waiters: &[u32]) -> u32 {
    if waiters.is_empty() {
        random.pick(&[0, 1, 65534, 65535])
    } else {
        0
    }
}

/// A pattern that meets no waiter's condition.
fn pattern(random: &mut Random, tasks: &[Task], waiters: &[u32]) -> u32 {
    let tried = random.word() & random.word();
    let met = waiters
        .iter()
        .any(|id| match tasks[*id as usize - 1].standing.wait() {
            Some(Wait::On(_, wish, mode)) => meets(tried, wish, mode),
            _ => false,
        });
    if met {
        0
    } else {
        tried
    }
}

/// The mailbox of each message: one that nobody waits at, or none.
fn mailboxes(random: &mut Random, setup: &Setup, waiters: &Queues) -> Vec<u32> {
    let open = |mailbox: u32| mailbox != 0 && waiters[mailbox as usize - 1].is_empty();
    let lay = |_| match random.below(setup.mailboxes + 1) {
        mailbox if open(mailbox) => mailbox,
        _ => 0,
    };
    (0..setup.messages).map(lay).collect()
}

fn mail(random: &mut Random, setup: &Setup, messages: &[u32]) -> Queues {
    let lying = |mailbox| {
        let lie = (1..)
            .zip(messages)
            .filter(move |(_, lies)| **lies == mailbox);
        lie.map(|(id, _)| id).collect()
    };
    (1..=setup.mailboxes)
        .map(|mailbox| shuffled(random, lying(mailbox)))
        .collect()
}

fn blocks(random: &mut Random, many: u32, waiters: &[u32]) -> Vec<bool> {
    (0..many)
        .map(|_| waiters.is_empty() && random.percent(50))
        .collect()
}

/// The free blocks of a pool in any order.
fn free(random: &mut Random, pool: &[bool]) -> Vec<u32> {
    let blocks = (1..).zip(pool).filter(|(_, free)| **free);
    let blocks = blocks.map(|(block, _)| block).collect();
    shuffled(random, blocks)
}

/// As often none open as some; then any task that may be interrupted, or none.
fn handlers(random: &mut Random, tasks: &[Task]) -> (u32, Option<u32>) {
    if random.percent(50) {
        return (0, None);
    }
    let may = |task: &Task| matches!(task.standing, Standing::Ready | Standing::Suspend);
    let depth = random.pick(&[1, 1, 2, 8, 14, 15, 15]);
    let interrupted = members(random, tasks, may).first().copied();
    (depth, interrupted.filter(|_| random.percent(80)))
}

/// A count below the size: mostly the next ones after the present count.
fn expiry(random: &mut Random, size: u32, present: u32) -> u32 {
    match random.below(4) {
        0 => random.below(size),
        1 => present,
        _ => (present + random.within(1, 3)) % size,
    }
}

fn period(random: &mut Random, size: u32) -> u32 {
    match random.below(4) {
        0 => random.below(size + 1),
        1 => size,
        2 => random.within(1, 3).min(size),
        _ => 0,
    }
}

/// Any present count, and alarms that are idle or due, with any code that they can have kept.
fn counter(random: &mut Random, from: &setup::Counter) -> Counter {
    let size = from.size;
    let present = match random.below(3) {
        0 => size - 1,
        1 => random.below(size),
        _ => random.below(size.min(3)),
    };
    let mut alarm = |(task, wakes)| {
        let due = random.percent(70).then(|| Due {
            expiry: expiry(random, size, present),
            period: period(random, size),
        });
        let fresh = Alarm {
            task,
            wakes,
            kept: 0,
            due,
        };
        Alarm {
            kept: random.pick(fresh.codes()),
            ..fresh
        }
    };
    Counter {
        size,
        present,
        alarms: from.alarms.map(&mut alarm),
    }
}

/// A sound state with as much of each thing as the setup has.
pub fn picture(random: &mut Random, setup: &Setup) -> Picture {
    let tasks: Vec<Task> = setup.tasks.iter().map(|_| task(random, setup)).collect();
    let at = |task: &Task, priority| task.standing == Standing::Ready && task.priority == priority;
    let ready = (1..=setup.priorities)
        .map(|p| members(random, &tasks, |task| at(task, p)))
        .collect();
    let semaphore_waiters = waiters(random, &tasks, setup.semaphores.len(), Object::Semaphore);
    let flag_waiters = waiters(random, &tasks, setup.flags.len(), Object::Flag);
    let mailbox_waiters = waiters(random, &tasks, setup.mailboxes as usize, Object::Mailbox);
    let pool_waiters = waiters(random, &tasks, setup.pools.len(), Object::Pool);
    let messages = mailboxes(random, setup, &mailbox_waiters);
    let pools = setup.pools.iter().zip(&pool_waiters);
    let pools: Vec<Vec<bool>> = pools
        .map(|(many, queue)| blocks(random, *many, queue))
        .collect();
    let (depth, interrupted) = handlers(random, &tasks);
    let counter = setup.counter.as_ref().map(|from| counter(random, from));
    Picture {
        priorities: setup.priorities,
        semaphores: semaphore_waiters
            .iter()
            .map(|queue| semaphore(random, queue))
            .collect(),
        flags: flag_waiters
            .iter()
            .map(|queue| pattern(random, &tasks, queue))
            .collect(),
        mailboxes: setup.mailboxes,
        clock: clock(random),
        depth,
        interrupted,
        mail: mail(random, setup, &messages),
        free: pools.iter().map(|pool| free(random, pool)).collect(),
        pools,
        tasks,
        messages,
        ready,
        semaphore_waiters,
        flag_waiters,
        mailbox_waiters,
        pool_waiters,
        counter,
    }
}
