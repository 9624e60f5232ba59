//! Rules broken on purpose: a sound picture is changed and drawn, or links of the drawn one are led elsewhere, and often several at once.
use super::{sketched, Tally};
use okrozumba::State;
use second::layout::{self, Links, BLOCK_LINKS, MAIL_LINKS, TASK_LINKS};
use second::picture::{Due, Object, Picture, Queues, Standing, Wait, ABSENT, H_NUMBER};
use second::random::Random;
use second::setup::ALARMS;

const AIMED: u64 = 60_000;

// ---- pictures

/// A queue of tasks or messages, of a random kind that has one.
fn any_queue<'a>(random: &mut Random, p: &'a mut Picture) -> Option<&'a mut Vec<u32>> {
    let kind = match random.below(6) {
        0 => &mut p.ready,
        1 => &mut p.semaphore_waiters,
        2 => &mut p.flag_waiters,
        3 => &mut p.mailbox_waiters,
        4 => &mut p.pool_waiters,
        _ => &mut p.mail,
    };
    let many = kind.len() as u32;
    (many > 0).then(|| &mut kind[random.below(many) as usize])
}

fn take_out(random: &mut Random, p: &mut Picture) -> Option<u32> {
    let queue = any_queue(random, p)?;
    let many = queue.len() as u32;
    (many > 0).then(|| queue.remove(random.below(many) as usize))
}

fn put_in(random: &mut Random, p: &mut Picture, id: u32) {
    if let Some(queue) = any_queue(random, p) {
        let at = random.below(queue.len() as u32 + 1) as usize;
        queue.insert(at, id);
    }
}

/// Somebody leaves a queue, or goes to another, or comes into one, or two change places. The links are whole as far as they can be.
fn misplace(random: &mut Random, p: &mut Picture) {
    match random.below(4) {
        0 => {
            take_out(random, p);
        }
        1 => {
            if let Some(id) = take_out(random, p) {
                put_in(random, p, id);
            }
        }
        2 => {
            let id = random.within(1, p.tasks.len() as u32);
            put_in(random, p, id);
        }
        _ => {
            if let (Some(one), Some(other)) = (take_out(random, p), take_out(random, p)) {
                put_in(random, p, other);
                put_in(random, p, one);
            }
        }
    }
}

/// A message that lies in no mailbox goes into one.
fn lay_message(random: &mut Random, p: &mut Picture, mailbox: u32) {
    let unsent = (1..).zip(&p.messages).filter(|(_, lies_in)| **lies_in == 0);
    let unsent: Vec<u32> = unsent.map(|(message, _)| message).collect();
    if !unsent.is_empty() {
        let message = random.pick(&unsent);
        p.messages[message as usize - 1] = mailbox;
        p.mail[mailbox as usize - 1].push(message);
    }
}

/// What would serve a waiter comes beside it, with everything else as it should be. Of those that wait for a flag it may serve this one
/// alone.
fn serve_waiter(random: &mut Random, p: &mut Picture) {
    let waits = p.tasks.iter().filter_map(|task| task.standing.wait());
    let objects = waits.filter_map(|wait| match wait {
        Wait::On(object, wish, _) => Some((object, wish)),
        _ => None,
    });
    let objects: Vec<(Object, u32)> = objects.collect();
    if objects.is_empty() {
        return;
    }
    match random.pick(&objects) {
        (Object::Semaphore(id), _) => {
            p.semaphores[id as usize - 1] = random.pick(&[1, 2, 65535]);
        }
        (Object::Flag(id), wish) => p.flags[id as usize - 1] = wish,
        (Object::Mailbox(id), _) => lay_message(random, p, id),
        (Object::Pool(id), _) => {
            let free = &mut p.pools[id as usize - 1];
            let block = random.below(free.len() as u32);
            free[block as usize] = true;
        }
    }
}

/// A task is no more, wherever it stood; or something of it stays.
fn unmake(random: &mut Random, p: &mut Picture) {
    let task = random.below(p.tasks.len() as u32) as usize;
    let was = std::mem::replace(&mut p.tasks[task], ABSENT);
    let task = &mut p.tasks[task];
    match random.below(10) {
        0 => task.start = was.start,
        1 => task.priority = was.priority,
        2 => task.wakeups = was.wakeups,
        3 => task.cell = was.cell,
        4 => {
            *task = was;
            task.standing = Standing::Absent;
        }
        _ => {}
    }
}

/// A block comes into a pool's free queue, once more or wrongly, or leaves it, or its mark is changed.
fn misplace_block(random: &mut Random, p: &mut Picture) {
    let pools = p.pools.len() as u32;
    if pools == 0 {
        return;
    }
    let pool = random.below(pools) as usize;
    let (marks, queue) = (&mut p.pools[pool], &mut p.free[pool]);
    let (block, listed) = (random.below(marks.len() as u32), queue.len() as u32);
    match random.below(8) {
        0..=2 => queue.insert(random.below(listed + 1) as usize, block + 1),
        // one that the pool may not have
        3 => queue.push(random.within(1, 32)),
        4 | 5 if listed > 0 => {
            queue.remove(random.below(listed) as usize);
        }
        _ => marks[block as usize] ^= true,
    }
}

/// Any task interrupted, also one that there isn't, at a depth that may be too great, with everything else as it should be.
fn interrupt_any(random: &mut Random, p: &mut Picture) {
    p.depth = random.pick(&[1, 1, 1, 2, 14, 15, 15, 16, 17, 1 << 31, u32::MAX]);
    let ids = [0, 1, p.tasks.len() as u32, p.tasks.len() as u32 + 1, 33];
    p.interrupted = Some(match random.below(4) {
        0 => random.pick(&ids),
        1 => random.word(),
        _ => random.within(1, p.tasks.len() as u32),
    });
}

/// A number of the counter or of an alarm at the edges of its range, or the counter gone.
fn wind(random: &mut Random, p: &mut Picture) {
    let Some(counter) = &mut p.counter else {
        return;
    };
    let size = counter.size;
    let edges = [0, 1, size - 1, size, size + 1, 65535, 65536];
    let alarm = &mut counter.alarms[random.below(ALARMS as u32) as usize];
    match random.below(8) {
        0 => counter.size = random.pick(&[1, size + 1, 65535, 65536, u32::MAX]),
        1 => counter.present = random.pick(&edges),
        2 => alarm.task = random.pick(&[0, 1, p.tasks.len() as u32, p.tasks.len() as u32 + 1]),
        3 => alarm.wakes ^= true,
        4 => alarm.kept = random.pick(&[0, -3, -2100, -2101, -2889, -4, -3413, i32::MIN]),
        5 => p.counter = None,
        _ => {
            let (expiry, period) = (random.pick(&edges), random.pick(&edges));
            alarm.due = random.percent(80).then_some(Due { expiry, period });
        }
    }
}

// ---- links

/// A queue of somebody.
fn some_queue<'a>(random: &mut Random, kinds: &[&'a Queues]) -> Option<&'a Vec<u32>> {
    let nonempty = |queue: &&'a Vec<u32>| !queue.is_empty();
    let queues: Vec<_> = kinds.iter().copied().flatten().filter(nonempty).collect();
    (!queues.is_empty()).then(|| random.pick(&queues))
}

/// The link of one in a queue leads back to itself or to one before it, so that the queue never ends.
fn loop_back(random: &mut Random, state: &State, links: Links, kinds: &[&Queues]) -> State {
    let Some(queue) = some_queue(random, kinds) else {
        return state.clone();
    };
    let end = random.below(queue.len() as u32) as usize;
    let back = random.pick(&queue[..=end]);
    layout::with_next(state, links, queue[end], back)
}

/// A mailbox's list goes on in that of any mailbox.
fn join_mail(random: &mut Random, state: &State, mail: &Queues) -> State {
    let Some(into) = some_queue(random, &[mail]) else {
        return state.clone();
    };
    let mailbox = random.within(1, mail.len() as u32);
    let own = mail[mailbox as usize - 1].last().copied();
    let from = own.unwrap_or(layout::mail_anchor(mailbox));
    layout::with_next(state, MAIL_LINKS, from, random.pick(into))
}

// ---- both

/// By turns nothing, one thing or two.
fn changed(random: &mut Random, p: &mut Picture) {
    match random.below(16) {
        0 => interrupt_any(random, p),
        1..=3 => misplace(random, p),
        4 | 5 => serve_waiter(random, p),
        6 => {
            serve_waiter(random, p);
            misplace(random, p);
        }
        7 | 8 => misplace_block(random, p),
        9 => {
            misplace(random, p);
            misplace_block(random, p);
        }
        10 | 11 => unmake(random, p),
        12 | 13 => wind(random, p),
        14 => {
            wind(random, p);
            misplace(random, p);
        }
        _ => {}
    }
}

fn led_elsewhere(random: &mut Random, state: &State, p: &Picture) -> State {
    match random.below(7) {
        0 | 1 => loop_back(random, state, MAIL_LINKS, &[&p.mail]),
        2 => {
            let looped = loop_back(random, state, MAIL_LINKS, &[&p.mail]);
            join_mail(random, &looped, &p.mail)
        }
        3 => join_mail(random, state, &p.mail),
        4 => loop_back(random, state, TASK_LINKS, &p.task_queues()),
        5 => loop_back(random, state, BLOCK_LINKS, &[&layout::free_nodes(p)]),
        _ => state.clone(),
    }
}

/// A number out of range comes before all else that is damaged; the word of nonempty ready queues comes behind it.
fn first_and_last(tally: &mut Tally, random: &mut Random, state: &State) -> Result<(), String> {
    let told = |state| layout::shown(state).map_err(|breach| (breach.code, breach.id));
    let number = layout::with_handling(state, 16, 0);
    if told(&number) != Err((H_NUMBER, 0)) {
        return Err("16 handlers open, and another rule is told".to_string());
    }
    tally.judge(&number)?;
    let word = layout::with_ready_bit_changed(state, random.below(32));
    match told(state) {
        Ok(_) | Err((H_NUMBER, _)) => Ok(()),
        before if before == told(&word) => tally.judge(&word),
        _ => Err("the word of nonempty ready queues hides another rule".to_string()),
    }
}

fn aim(tally: &mut Tally, seed: u64) -> Result<(), String> {
    let random = &mut Random::new(seed);
    let mut picture = sketched(random, seed);
    changed(random, &mut picture);
    let drawn = layout::drawn(&picture, || random.word());
    let state = led_elsewhere(random, &drawn, &picture);
    tally.judge(&state)?;
    first_and_last(tally, random, &state)
}

pub fn check(tally: &mut Tally) -> Result<(), String> {
    for seed in 0..AIMED {
        aim(tally, seed).map_err(|d| format!("aimed {seed}: {d}"))?;
    }
    Ok(())
}
