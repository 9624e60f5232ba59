//! The rings beside the proved kernel, and beside the plain one, which no archive is needed for.
use super::*;
use crate::alarms::Alarms;
use crate::cases::{self, Bench};
use crate::layout;
use crate::looks::Looks;
use crate::picture::{self, Breach, Due, Object, Picture, Queues, Standing, Wait, DAMAGE_CODES};
use crate::plain::{Event, Plain};
use crate::random::Random;
use crate::recording;
use crate::script::{self, Author, SIZES};
use crate::setup::Setup;
use crate::sketch;
use okrozumba::State;

const RUNS: u64 = 400;
const EVENTS: u32 = 500;
const STATES: u64 = 4000;
const DAMAGED: u64 = 40_000;
const EVENTS_ON: u32 = 20;

fn drawn(seed: u64) -> (Random, Setup) {
    let mut random = Random::new(seed);
    let setup = script::setup(&mut random, SIZES[seed as usize % SIZES.len()]);
    (random, setup)
}

fn same_cells(rings: &Kernel, proved: &State) {
    for id in -1..=33 {
        let cell = proved.cell(id);
        assert_eq!(rings.cell(id), (cell.code, cell.word), "cell of {id}");
    }
}

/// The same answers and cells as the proved kernel, and never a state that the check finds damaged.
#[test]
fn answers_are_the_proved_kernels() {
    for seed in 0..RUNS {
        let (mut random, setup) = drawn(seed);
        let bytes = setup::bytes(&setup);
        let mut author = Author::default();
        let mut plain = Plain::fresh(&setup);
        let mut proved = State::start(&bytes).unwrap();
        let mut rings = Kernel::start(&bytes).unwrap();
        for _ in 0..EVENTS {
            let e = recording::words(author.event(&mut random, &plain));
            plain.event(recording::event(e));
            let mut answer = [0; 4];
            let mut code = [0];
            proved.events(&e, &mut code, &mut answer).unwrap();
            let r = rings.checked_event(&e);
            assert_eq!(
                (r.code, [r.w1, r.w2, r.running, r.released]),
                (code[0], answer),
                "seed {seed}, {e:?}"
            );
            same_cells(&rings, &proved);
        }
    }
}

/// Both unproved kernels, which must agree.
struct Both {
    plain: Plain,
    rings: Kernel,
}

impl Both {
    fn fresh(setup: &Setup) -> Both {
        Both {
            plain: Plain::fresh(setup),
            rings: Kernel::start(&setup::bytes(setup)).unwrap(),
        }
    }

    /// Both kernels that stand as the picture does.
    fn standing(p: &Picture) -> Both {
        Both {
            plain: Plain::standing(p),
            rings: standing(p),
        }
    }

    fn same_state(&self) -> Result<(), String> {
        let p = self.plain.picture();
        p.sound()
            .map_err(|rule| format!("the plain kernel's {rule}: {p:?}"))?;
        let shown = shown(&self.rings);
        if shown != p {
            return Err(format!("{p:?}, the rings {shown:?}"));
        }
        let running = (self.plain.running().unwrap_or(0), self.rings.running);
        if running.0 != running.1 || (-1..=33).any(|id| self.rings.cell(id) != self.plain.cell(id))
        {
            return Err(format!("running tasks {running:?}, or a cell, of {p:?}"));
        }
        Ok(())
    }
}

// ---- pictures of rings

/// Of damaged rings too: what is no id of 1 to n is the last one listed, and so is entry n + 1.
fn listed<const N: usize>(rings: &Rings<N>, anchor: u32, many: u32, n: u32) -> Queues {
    let onward = |id: &u32| (1..=n).contains(id).then(|| rings.next(*id));
    let queue = |anchor| {
        let all = std::iter::successors(Some(rings.next(anchor)), onward);
        let back = all.take_while(|id| *id != anchor);
        back.take(n as usize + 1).collect()
    };
    (anchor..anchor + many).map(queue).collect()
}

fn wait_of(k: &Kernel, task: &Task) -> Wait {
    match task.kind {
        SLEEP => Wait::Asleep,
        TIMED => Wait::Timed(k.left(task)),
        SEMAPHORE => Wait::On(Object::Semaphore(task.object), 0, 0),
        FLAG => Wait::On(Object::Flag(task.object), task.wish, task.mode),
        MAILBOX => Wait::On(Object::Mailbox(task.object), 0, 0),
        _ => Wait::On(Object::Pool(task.object), 0, 0),
    }
}

fn task_of(k: &Kernel, task: &Task) -> picture::Task {
    picture::Task {
        start: task.start,
        priority: task.priority,
        standing: match task.status {
            DORMANT => Standing::Dormant,
            READY => Standing::Ready,
            SUSPEND => Standing::Suspend,
            WAIT => Standing::Wait(wait_of(k, task)),
            ABSENT => Standing::Absent,
            _ => Standing::WaitSuspend(wait_of(k, task)),
        },
        wakeups: task.wakeups,
        cell: (task.code, task.word),
    }
}

fn shown(k: &Kernel) -> Picture {
    let of_tasks = |anchor, many| listed(&k.queue, anchor, many, k.tasks);
    let free = |p: usize| {
        (0..k.size[p])
            .map(|block| k.free[p] >> block & 1 == 1)
            .collect()
    };
    let blocks = |p: u32| {
        let nodes = &listed(&k.blocks, free_anchor(p), 1, 32 * k.pools)[0];
        let block = |node: &u32| node.saturating_sub(block_node(p, 0));
        nodes.iter().map(block).collect()
    };
    Picture {
        priorities: k.priorities,
        tasks: (1..=k.tasks).map(|t| task_of(k, k.at(t))).collect(),
        semaphores: k.count[1..=k.semaphores as usize].to_vec(),
        flags: k.pattern[1..=k.flags as usize].to_vec(),
        mailboxes: k.mailboxes,
        messages: k.mailbox[1..=k.messages as usize].to_vec(),
        pools: (1..=k.pools as usize).map(free).collect(),
        clock: k.clock,
        depth: k.depth,
        interrupted: (k.depth > 0 && k.running > 0).then_some(k.running),
        ready: of_tasks(ready_anchor(1), k.priorities),
        semaphore_waiters: of_tasks(wait_anchor(SEMAPHORE, 1), k.semaphores),
        flag_waiters: of_tasks(wait_anchor(FLAG, 1), k.flags),
        mailbox_waiters: of_tasks(wait_anchor(MAILBOX, 1), k.mailboxes),
        pool_waiters: of_tasks(wait_anchor(POOL, 1), k.pools),
        mail: listed(&k.mail, mail_anchor(1), k.mailboxes, k.messages),
        free: (1..=k.pools).map(blocks).collect(),
        counter: (k.round != 0).then(|| counter_of(k)),
    }
}

fn counter_of(k: &Kernel) -> picture::Counter {
    let alarm = |i: usize| {
        let from = &k.alarm[i + 1];
        picture::Alarm {
            task: from.task,
            wakes: from.wakes != 0,
            kept: from.kept,
            due: k.is_used(i as u32 + 1).then_some(Due {
                expiry: from.expiry,
                period: from.period,
            }),
        }
    };
    picture::Counter {
        size: k.round,
        present: k.present,
        alarms: std::array::from_fn(alarm),
    }
}

fn put_counter(k: &mut Kernel, from: &picture::Counter) {
    k.present = from.present;
    for (i, alarm) in (1..).zip(&from.alarms) {
        let to = &mut k.alarm[i as usize];
        to.kept = alarm.kept;
        if let Some(due) = alarm.due {
            to.period = due.period;
            k.arm(i, due.expiry);
        }
    }
}

fn put_wait(k: &mut Kernel, t: u32, wait: Wait) {
    let (kind, object, wish, mode) = match wait {
        Wait::Asleep => (SLEEP, 0, 0, 0),
        Wait::Timed(left) => return k.wait_ticks(t, left),
        Wait::On(Object::Semaphore(on), wish, mode) => (SEMAPHORE, on, wish, mode),
        Wait::On(Object::Flag(on), wish, mode) => (FLAG, on, wish, mode),
        Wait::On(Object::Mailbox(on), wish, mode) => (MAILBOX, on, wish, mode),
        Wait::On(Object::Pool(on), wish, mode) => (POOL, on, wish, mode),
    };
    let task = k.at_mut(t);
    task.kind = kind;
    task.object = object;
    task.wish = wish;
    task.mode = mode;
}

fn put_task(k: &mut Kernel, t: u32, from: &picture::Task) {
    let task = k.at_mut(t);
    task.status = match from.standing {
        Standing::Dormant => DORMANT,
        Standing::Ready => READY,
        Standing::Suspend => SUSPEND,
        Standing::Wait(_) => WAIT,
        Standing::WaitSuspend(_) => WAIT_SUSPEND,
        Standing::Absent => ABSENT,
    };
    task.start = from.start;
    task.priority = from.priority;
    task.wakeups = from.wakeups;
    (task.code, task.word) = from.cell;
    if let Some(wait) = from.standing.wait() {
        put_wait(k, t, wait);
    }
}

/// Rings that stand as the picture does.
fn standing(p: &Picture) -> Kernel {
    let setup = Setup {
        priorities: p.priorities,
        tasks: p.tasks.iter().map(|_| (1, false)).collect(),
        semaphores: p.semaphores.clone(),
        flags: p.flags.clone(),
        mailboxes: p.mailboxes,
        messages: p.messages.len() as u32,
        pools: p.pools.iter().map(|free| free.len() as u32).collect(),
        counter: p.counter.as_ref().map(|counter| setup::Counter {
            size: counter.size,
            alarms: counter.alarms.map(|alarm| (alarm.task, alarm.wakes)),
        }),
    };
    let mut k = Kernel::start(&setup::bytes(&setup)).unwrap();
    k.clock = p.clock;
    for (t, task) in (1..).zip(&p.tasks) {
        put_task(&mut k, t, task);
    }
    let [ready, waiters @ ..] = p.task_queues();
    for t in ready.iter().flatten() {
        k.enter_ready(*t);
    }
    for t in waiters.into_iter().flatten().flatten() {
        let anchor = k.home(*t);
        k.queue.push(anchor, *t);
    }
    for (m, mail) in (1..).zip(&p.mail) {
        for j in mail {
            k.mail.push(mail_anchor(m), *j);
            k.mailbox[*j as usize] = m;
        }
    }
    for (p, free) in (1..).zip(&p.free) {
        while k.take_block(p) != 0 {}
        free.iter().for_each(|block| k.free_block(p, *block));
    }
    if let Some(counter) = &p.counter {
        put_counter(&mut k, counter);
    }
    k.depth = p.depth;
    k.running = if p.depth == 0 {
        k.best()
    } else {
        p.interrupted.unwrap_or(0)
    };
    k
}

impl Bench for Both {
    fn event(&mut self, event: Event) -> Result<Answer, String> {
        let five = recording::words(event);
        let before = self.rings.clone();
        let (plain, rings) = (
            self.plain.event(recording::event(five)),
            self.rings.checked_event(&five),
        );
        if plain != rings {
            return Err(format!("{event:?}: {plain:?}, the rings {rings:?}"));
        }
        if plain.code < 0 && before != self.rings {
            return Err(format!("{event:?} was refused and changed the rings"));
        }
        self.same_state()?;
        Ok(plain)
    }

    fn running(&self) -> Result<u32, String> {
        self.same_state()?;
        Ok(self.rings.running)
    }

    fn cell(&self, task: i32) -> Result<(i32, u32), String> {
        self.same_state()?;
        Ok(self.rings.cell(task))
    }
}

/// What the papers say of single events.
#[test]
fn cases_hold() {
    cases::check(|setup| Ok(Both::fresh(setup))).unwrap();
}

/// Random runs in which handlers are nested and set_flg meets queues of each kind: the same answers, and after each event the same state.
#[test]
fn answers_are_the_plain_kernels() {
    let mut deepest = 0;
    let mut looks = Looks::default();
    let mut alarms = Alarms::default();
    for seed in 0..RUNS {
        let (mut random, setup) = drawn(40_000 + seed);
        let mut both = Both::fresh(&setup);
        let mut author = Author::default();
        for _ in 0..EVENTS {
            let before = both.plain.clone();
            let event = author.event(&mut random, &before);
            let answer = both
                .event(event)
                .unwrap_or_else(|d| panic!("seed {seed}: {d}"));
            deepest = deepest.max(both.plain.depth());
            looks.event(&before, event, &both.plain, &answer);
            alarms.event(&before, event, &both.plain, answer.code);
        }
    }
    assert_eq!(deepest, 15);
    looks.lines().unwrap();
    alarms.lines().unwrap();
}

/// From sound states that no short run reaches, too; and each has a memory that shows it.
#[test]
fn sound_states_go_on_alike() {
    let mut open = 0;
    for seed in 0..STATES {
        let (mut random, setup) = drawn(seed);
        let mut both = Both::standing(&sketch::picture(&mut random, &setup));
        both.same_state()
            .unwrap_or_else(|d| panic!("seed {seed}: {d}"));
        let mut author = Author::default();
        for _ in 0..EVENTS_ON {
            let event = author.event(&mut random, &both.plain);
            both.event(event)
                .unwrap_or_else(|d| panic!("seed {seed}: {d}"));
        }
        let last = both.plain.picture();
        let memory = layout::drawn(&last, || random.word());
        assert_eq!(layout::shown(&memory), Ok(last), "seed {seed}");
        open += u32::from(both.plain.depth() > 0);
    }
    assert!(open > 0);
}

/// Any other kind than 0 to 4 is H_CALL, whatever its words say and whether or not a handler is open; kinds 2, 3 and 4 ignore the words.
#[test]
fn kinds_are_judged_first() {
    let mut both = Both::fresh(&cases::setup().unwrap());
    for open in [0, 1] {
        assert_eq!(both.plain.depth(), open);
        for kind in [-1, 5, 6, i32::MIN, i32::MAX] {
            for number in [0, 1, 14, 26, 33] {
                let e = [kind, number, 99, 99, 99];
                let told = (
                    both.plain.event(recording::event(e)).code,
                    both.rings.event(&e).code,
                );
                assert_eq!(told, (H_CALL, H_CALL), "{e:?}");
            }
        }
        both.event(Event::Enter).unwrap();
    }
    for kind in [2, 3, 4] {
        let told = [0, 1, -1, i32::MIN, 77].map(|word| {
            let e = [kind, word, word, word, word];
            let (mut plain, mut rings) = (both.plain.clone(), both.rings.clone());
            (plain.event(recording::event(e)), rings.event(&e))
        });
        assert!(told
            .iter()
            .all(|each| each.0 == told[0].0 && each.1 == each.0));
        assert_eq!(told[0].0.code, 0);
    }
}

/// The check sees damage of each kind, and tells its code and id.
#[test]
fn damage_is_found() {
    let setup = script::setup(&mut Random::new(2), SIZES[2]);
    let mut sound = Kernel::start(&setup::bytes(&setup)).unwrap();
    let waits = sound.running;
    assert!(sound.event(&[0, 18, 1, 1 << 31, 0]).code >= 0);
    assert!(sound.event(&[0, 20, 1, 1, 0]).code >= 0);
    assert!(sound.event(&[0, 10, 9, 0, 0]).code >= 0);
    sound.alarm[1].wakes = 1;
    assert_eq!(sound.event(&[0, 37, 1, 1, 1]).code, 0);
    assert!(sound.is_sound());
    let t = sound.running;
    type Damage = fn(&mut Kernel, u32);
    let damages: [(Damage, i32, u32); 37] = [
        (|k, _| k.priorities = 17, H_NUMBER, 0),
        (|k, _| k.ready ^= 1 << 3, H_NUMBER, 0),
        (|k, _| k.timed ^= 1, H_NUMBER, 0),
        (|k, _| k.soonest += 1, H_NUMBER, 0),
        (|k, _| k.until += 1, H_NUMBER, 0),
        (|k, _| k.count[1] = 65536, H_NUMBER, 0),
        (|k, _| k.size[1] = 33, H_NUMBER, 0),
        (|k, _| k.mailbox[1] ^= 1, H_NUMBER, 0),
        (|k, _| k.mailbox[200] = 1, H_NUMBER, 0),
        (|k, _| k.mailbox[200] = u32::MAX - 255, H_NUMBER, 0),
        (|k, _| k.mail.link[1].prev = 2, H_NUMBER, 0),
        (|k, _| k.mail.link[1].next = 1, H_TWICE, 1),
        (|k, _| k.blocks.link[33].next = 33, H_FREE, 2),
        (|k, _| k.free[8] &= !1, H_FREE, 8),
        (|k, _| k.blocks.link[257].next = 33, H_NUMBER, 0),
        (|k, _| k.blocks.link[1].prev = 1, H_NUMBER, 0),
        (|k, t| k.queue.link[t as usize].next = t, H_QUEUE, t),
        (|k, t| k.at_mut(t).wakeups = 16, H_NUMBER, 0),
        (|k, t| k.at_mut(t).status = SUSPEND, H_QUEUE, t),
        (|k, t| k.at_mut(t).status = ABSENT, H_NUMBER, 0),
        (|k, t| k.delete(t), H_QUEUE, t),
        (|k, _| k.at_mut(1).start = 0, H_NUMBER, 0),
        (|k, t| k.at_mut(t).code = 7, H_NUMBER, 0),
        (|k, _| k.pattern[1] = 1 << 31, H_SERVED, waits),
        (|k, _| k.running = 0, H_NUMBER, 0),
        (|k, _| k.depth = 16, H_NUMBER, 0),
        (|k, _| k.clock = 1 << 48, H_NUMBER, 0),
        (|k, _| k.round = 65536, H_NUMBER, 0),
        (|k, _| k.present = k.round, H_NUMBER, 0),
        (|k, _| k.used |= 1 << 8, H_NUMBER, 0),
        (|k, _| k.alarm[8].task = 0, H_NUMBER, 0),
        (|k, _| k.alarm[1].task = k.tasks + 1, H_NUMBER, 0),
        (|k, _| k.alarm[2].wakes = 2, H_NUMBER, 0),
        (|k, _| k.alarm[3].kept = E_TMOUT, H_NUMBER, 0),
        (|k, _| k.alarm[1].kept = H_NODMT, H_NUMBER, 0),
        (|k, _| k.alarm[1].expiry = k.round, H_NUMBER, 0),
        (|k, _| k.alarm[1].period = k.round + 1, H_NUMBER, 0),
    ];
    for (i, (damage, code, id)) in damages.into_iter().enumerate() {
        let mut k = sound.clone();
        damage(&mut k, t);
        let told = k.checked_event(&[0, 26, 0, 0, 0]);
        let refused = Answer {
            code,
            w1: id,
            ..Answer::default()
        };
        assert_eq!(told, refused, "damage {i}");
    }
}

/// One change of what a picture shows, or of a link.
fn hurt(random: &mut Random, k: &mut Kernel) {
    let t = random.within(1, k.tasks);
    let j = random.below(k.messages + 1) as usize;
    let node = |random: &mut Random, most| match random.below(8) {
        0 => random.word(),
        _ => random.within(1, most),
    };
    let block = random.below(265) as usize;
    let p = random.below(k.pools + 1) as usize;
    let alarm = &mut k.alarm[random.within(1, 8) as usize];
    match random.below(23) {
        0 => k.queue.link[random.below(105) as usize].next = node(random, k.tasks),
        1 => k.queue.link[random.below(105) as usize].prev = node(random, k.tasks),
        2 => k.mail.link[random.below(273) as usize].next = node(random, k.messages.max(1)),
        3 => k.mail.link[j].next = node(random, k.messages.max(1)),
        4 => k.mail.link[j].prev = node(random, k.messages.max(1)),
        5 => {
            k.at_mut(t).status = random.pick(&[DORMANT, READY, WAIT, SUSPEND, WAIT_SUSPEND, ABSENT])
        }
        6 => k.at_mut(t).priority = random.below(k.priorities + 2),
        7 => k.at_mut(t).object = random.below(18),
        8 => k.count[random.below(17) as usize] = random.pick(&[0, 1, 65535, 65536]),
        9 => k.pattern[random.below(17) as usize] = random.word(),
        10 => k.mailbox[j] = node(random, k.mailboxes + 1),
        11 => k.blocks.link[block].next = node(random, 264),
        12 => k.blocks.link[block].prev = node(random, 264),
        13 => k.free[p] ^= 1 << random.below(k.size[p].max(1)),
        14 => k.delete(t),
        15 => k.round = random.pick(&[0, 1, k.round + 1, 65535, 65536]),
        16 => k.present = random.pick(&[0, k.round, k.round.wrapping_sub(1)]),
        17 => alarm.task = random.below(34),
        18 => alarm.wakes ^= 1,
        19 => alarm.kept = random.pick(&[0, -3, -2100, -2101, -2889, -3413, 1, i32::MIN]),
        20 => alarm.expiry = random.below(k.round + 2),
        21 => alarm.period = random.below(k.round + 2),
        _ => k.depth = random.below(17),
    }
}

/// Damaged rings tell what the second decision says of their picture. What only the rings know (backward links, masks, who runs) comes
/// behind: where the picture is sound it is a breach with no code of its own.
#[test]
fn damage_is_named() {
    let mut times = DAMAGE_CODES.map(|code| (code, 0));
    for seed in 0..DAMAGED {
        let (mut random, setup) = drawn(seed);
        let mut k = standing(&sketch::picture(&mut random, &setup));
        for _ in 0..random.within(1, 3) {
            hurt(&mut random, &mut k);
        }
        let second = shown(&k).sound();
        if k.is_sound() {
            assert_eq!(second, Ok(()), "seed {seed}");
            continue;
        }
        let breach = second.err().unwrap_or(Breach::number("the rings"));
        assert_eq!(
            k.breach(),
            (breach.code, breach.id),
            "{breach}, seed {seed}"
        );
        for (code, times) in &mut times {
            *times += u32::from(*code == breach.code);
        }
    }
    assert!(times.iter().all(|(_, times)| *times > 100), "{times:?}");
}

/// The check, and the second decision on the picture, of rings with such a depth and interrupted task. Damage is a number out of range.
fn judged(open: &Kernel, depth: u32, interrupted: u32) -> [bool; 2] {
    let mut k = open.clone();
    k.depth = depth;
    k.running = interrupted;
    let told = k.checked_event(&[3, 0, 0, 0, 0]);
    let second = shown(&k).sound().map_err(|breach| breach.code);
    assert_ne!(second.is_ok(), second == Err(H_NUMBER));
    [told.code != H_NUMBER, second.is_ok()]
}

/// The depth is 0 to 15; above 0 the interrupted task is 0 or one that is ready or suspended, and nothing else.
#[test]
fn interrupted_is_judged() {
    let mut open = Kernel::start(&setup::bytes(&cases::setup().unwrap())).unwrap();
    // 1 sleeps, 2 is ready, 3 is dormant
    for e in [[0, 9, 0, 0, 0], [3, 0, 0, 0, 0]] {
        assert!(open.event(&e).code >= 0);
    }
    // then 2 is suspended, then 1 too
    for e in [[1, 27, 1, 0, 0], [1, 7, 2, 0, 0], [1, 7, 1, 0, 0]] {
        assert_eq!(open.event(&e).code, 0);
        for interrupted in [0, 1, 2, 3, 4, 33, u32::MAX] {
            let sound = matches!(interrupted, 0 | 2);
            for (depth, in_range) in [(1, true), (15, true), (16, false), (u32::MAX, false)] {
                assert_eq!(
                    judged(&open, depth, interrupted),
                    [sound && in_range; 2],
                    "{e:?}, depth {depth}, interrupted {interrupted}"
                );
            }
        }
    }
}
