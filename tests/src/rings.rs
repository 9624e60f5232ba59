//! The kernel of paper 01 and requests K2, K5 to K7, K9 and K11 once more, unproved and written for speed: what `bench` measures the proved one against.
//!
//! Queues are doubly linked rings in arrays: nodes 1 to 32 are tasks (1 to 256 messages, or free blocks, 32 for each pool), the nodes behind
//! them anchors, one for each queue.
//! Bit masks say which ready queues are nonempty, which tasks wait for a time and which alarms are in use; a tick looks at them only when
//! one of them may be due. Nothing is allocated. Numbers that a sound state keeps in their ranges are trusted; `Kernel::is_sound` looks at
//! all of them, and `Kernel::checked_event` does so before the event.

mod damage;

use crate::setup::{self, Fault, ALARMS};
use okrozumba::code::*;
use okrozumba::task_state::*;
use okrozumba::Answer;

const TASKS: usize = 32;
const MESSAGES: usize = 256;
const BLOCKS: usize = 256;

/// The status of a task that is not there; the others are what tsk_sts gives.
const ABSENT: u32 = 6;

/// What a task waits for. Those that wait for an object stand in its ring; that of kind k and object o has the anchor 16 + 16 k + o.
const SLEEP: u32 = 0;
const TIMED: u32 = 1;
const SEMAPHORE: u32 = 2;
const FLAG: u32 = 3;
const MAILBOX: u32 = 4;
const POOL: u32 = 5;

/// What a call that is not refused says.
struct Said {
    code: i32,
    w1: u32,
    w2: u32,
    released: u32,
}

const fn gives(w1: u32, w2: u32) -> Result<Said, i32> {
    Ok(Said {
        code: 0,
        w1,
        w2,
        released: 0,
    })
}

const fn released(n: u32) -> Result<Said, i32> {
    Ok(Said {
        code: 0,
        w1: 0,
        w2: 0,
        released: n,
    })
}

const DONE: Result<Said, i32> = gives(0, 0);
const CALLER_WAITS: Result<Said, i32> = Ok(Said {
    code: WAITS,
    w1: 0,
    w2: 0,
    released: 0,
});

#[derive(Clone, Copy, Default, PartialEq)]
struct Task {
    status: u32,
    priority: u32,
    start: u32,
    wakeups: u32,
    kind: u32,
    object: u32,
    wish: u32,
    mode: u32,
    /// The low word of the clock when a timed wait ends.
    due: u32,
    code: i32,
    word: u32,
}

#[derive(Clone, Copy, Default, PartialEq)]
struct Alarm {
    task: u32,
    /// 1 to wake it, 0 to start it.
    wakes: u32,
    kept: i32,
    /// These two count while it is in use.
    expiry: u32,
    period: u32,
}

#[derive(Clone, Copy, Default, PartialEq)]
struct Link {
    next: u32,
    prev: u32,
}

/// Rings over N nodes. An empty anchor points to itself; what a node in no ring holds doesn't count.
#[derive(Clone, PartialEq)]
struct Rings<const N: usize> {
    link: [Link; N],
}

impl<const N: usize> Rings<N> {
    fn new() -> Self {
        let mut link = [Link::default(); N];
        for (i, l) in link.iter_mut().enumerate() {
            *l = Link {
                next: i as u32,
                prev: i as u32,
            };
        }
        Rings { link }
    }

    fn next(&self, node: u32) -> u32 {
        self.link[node as usize].next
    }

    fn is_empty(&self, anchor: u32) -> bool {
        self.next(anchor) == anchor
    }

    /// The first behind an anchor, 0 if there is none.
    fn first(&self, anchor: u32) -> u32 {
        let f = self.next(anchor);
        if f == anchor {
            0
        } else {
            f
        }
    }

    fn push(&mut self, anchor: u32, node: u32) {
        let last = self.link[anchor as usize].prev;
        self.link[node as usize] = Link {
            next: anchor,
            prev: last,
        };
        self.link[last as usize].next = node;
        self.link[anchor as usize].prev = node;
    }

    fn leave(&mut self, node: u32) {
        let Link { next, prev } = self.link[node as usize];
        self.link[prev as usize].next = next;
        self.link[next as usize].prev = prev;
    }
}

#[derive(Clone, PartialEq)]
pub struct Kernel {
    /// Kept as it was at the outermost entry while a handler is open.
    running: u32,
    /// Handlers that are open.
    depth: u32,
    ready: u32,
    timed: u32,
    /// No timed wait ends before this low word of the clock.
    soonest: u32,
    clock: u64,
    priorities: u32,
    tasks: u32,
    semaphores: u32,
    flags: u32,
    mailboxes: u32,
    messages: u32,
    pools: u32,
    task: [Task; TASKS + 1],
    count: [u32; 17],
    pattern: [u32; 17],
    size: [u32; 9],
    free: [u32; 9],
    queue: Rings<105>,
    mail: Rings<{ MESSAGES + 17 }>,
    mailbox: [u32; MESSAGES + 1],
    blocks: Rings<{ BLOCKS + 9 }>,
    /// The counter's size, 0 if there is none; its present count; the alarms in use; and the ticks before which none of them fires.
    round: u32,
    present: u32,
    used: u32,
    until: u32,
    alarm: [Alarm; ALARMS + 1],
}

const fn ready_anchor(priority: u32) -> u32 {
    32 + priority
}

const fn wait_anchor(kind: u32, object: u32) -> u32 {
    16 + 16 * kind + object
}

const fn mail_anchor(mailbox: u32) -> u32 {
    256 + mailbox
}

const fn free_anchor(pool: u32) -> u32 {
    256 + pool
}

const fn block_node(pool: u32, block: u32) -> u32 {
    32 * (pool - 1) + block
}

/// A number of 1 to n, or the code.
fn within(a: i32, n: u32, code: i32) -> Result<u32, i32> {
    let i = a as u32;
    if i.wrapping_sub(1) < n {
        Ok(i)
    } else {
        Err(code)
    }
}

/// The mask of a pool all of whose blocks are free.
fn all_free(blocks: u32) -> u32 {
    u32::MAX >> (32 - blocks)
}

fn meets(have: u32, want: u32, mode: u32) -> bool {
    if mode & 1 != 0 {
        have & want != 0
    } else {
        have & want == want
    }
}

/// Who calls: an open handler, or the running task outside handlers, 0 if there is none.
#[derive(Clone, Copy)]
struct Caller {
    handler: bool,
    me: u32,
}

impl Caller {
    /// The task context, outside handlers.
    fn in_task(k: &Kernel) -> Caller {
        Caller {
            handler: false,
            me: if k.depth == 0 { k.running } else { 0 },
        }
    }

    /// The handler context, while one is open.
    fn in_handler(k: &Kernel) -> Caller {
        Caller {
            handler: k.depth != 0,
            me: 0,
        }
    }

    /// E_CTX for a call that handlers may make.
    fn any(self) -> Result<(), i32> {
        if self.me == 0 && !self.handler {
            Err(E_CTX)
        } else {
            Ok(())
        }
    }

    /// E_CTX for a task-only call; else the task.
    fn task(self) -> Result<u32, i32> {
        if self.me == 0 {
            Err(E_CTX)
        } else {
            Ok(self.me)
        }
    }
}

impl Kernel {
    /// The fresh state of a setup's bytes.
    pub fn start(bytes: &[u8]) -> Result<Kernel, Fault> {
        let setup = setup::read(bytes)?;
        let mut k = Kernel {
            running: 0,
            depth: 0,
            ready: 0,
            timed: 0,
            soonest: 0,
            clock: 0,
            priorities: setup.priorities,
            tasks: setup.tasks.len() as u32,
            semaphores: setup.semaphores.len() as u32,
            flags: setup.flags.len() as u32,
            mailboxes: setup.mailboxes,
            messages: setup.messages,
            pools: setup.pools.len() as u32,
            task: [Task::default(); TASKS + 1],
            count: [0; 17],
            pattern: [0; 17],
            size: [0; 9],
            free: [0; 9],
            queue: Rings::new(),
            mail: Rings::new(),
            mailbox: [0; MESSAGES + 1],
            blocks: Rings::new(),
            round: 0,
            present: 0,
            used: 0,
            until: 0,
            alarm: [Alarm::default(); ALARMS + 1],
        };
        if let Some(counter) = &setup.counter {
            k.round = counter.size;
            for (alarm, &(task, wakes)) in k.alarm[1..].iter_mut().zip(&counter.alarms) {
                alarm.task = task;
                alarm.wakes = u32::from(wakes);
            }
        }
        k.count[1..=setup.semaphores.len()].copy_from_slice(&setup.semaphores);
        k.pattern[1..=setup.flags.len()].copy_from_slice(&setup.flags);
        k.size[1..=setup.pools.len()].copy_from_slice(&setup.pools);
        for (p, &blocks) in (1..).zip(&setup.pools) {
            (1..=blocks).for_each(|b| k.free_block(p, b));
        }
        for (t, &(priority, started)) in (1..).zip(&setup.tasks) {
            k.at_mut(t).start = priority;
            k.at_mut(t).priority = priority;
            if started {
                k.make_ready(t);
            }
        }
        k.dispatch();
        Ok(k)
    }

    // ---- acts

    fn at(&self, t: u32) -> &Task {
        &self.task[t as usize]
    }

    fn at_mut(&mut self, t: u32) -> &mut Task {
        &mut self.task[t as usize]
    }

    /// The head of the best nonempty ready queue, 0 if all are empty.
    fn best(&self) -> u32 {
        if self.ready == 0 {
            0
        } else {
            self.queue
                .next(ready_anchor(self.ready.trailing_zeros() + 1))
        }
    }

    /// No task is switched while a handler is open.
    fn dispatch(&mut self) {
        if self.depth == 0 {
            self.running = self.best();
        }
    }

    /// Last in the queue of its priority; it is in no ring.
    fn enter_ready(&mut self, t: u32) {
        let p = self.at(t).priority;
        self.queue.push(ready_anchor(p), t);
        self.ready |= 1 << (p - 1);
    }

    /// Out of the ready queue of its priority.
    fn leave_ready(&mut self, t: u32) {
        let p = self.at(t).priority;
        self.queue.leave(t);
        if self.queue.is_empty(ready_anchor(p)) {
            self.ready &= !(1 << (p - 1));
        }
    }

    /// Ready; it is in no ring.
    fn make_ready(&mut self, t: u32) {
        self.at_mut(t).status = READY;
        self.enter_ready(t);
    }

    /// Out of what it waits for.
    fn leave_wait(&mut self, t: u32) {
        match self.at(t).kind {
            SLEEP => {}
            TIMED => self.timed &= !(1 << (t - 1)),
            _ => self.queue.leave(t),
        }
    }

    /// The wait of a task ends.
    fn release(&mut self, t: u32, code: i32, word: u32) {
        self.leave_wait(t);
        let task = self.at_mut(t);
        task.code = code;
        task.word = word;
        if task.status == WAIT {
            self.make_ready(t);
        } else {
            task.status = SUSPEND;
        }
    }

    /// The running task waits on an object.
    fn wait(&mut self, t: u32, kind: u32, object: u32) {
        self.leave_ready(t);
        let task = self.at_mut(t);
        task.status = WAIT;
        task.kind = kind;
        task.object = object;
        self.queue.push(wait_anchor(kind, object), t);
    }

    /// The running task sleeps, for so many ticks if there are any.
    fn sleep(&mut self, t: u32, ticks: u32) {
        self.leave_ready(t);
        self.at_mut(t).status = WAIT;
        if ticks == 0 {
            self.at_mut(t).kind = SLEEP;
        } else {
            self.wait_ticks(t, ticks);
        }
    }

    fn now(&self) -> u32 {
        self.clock as u32
    }

    fn wait_ticks(&mut self, t: u32, ticks: u32) {
        let due = self.now().wrapping_add(ticks);
        if self.timed == 0 || ticks < self.soonest.wrapping_sub(self.now()) {
            self.soonest = due;
        }
        self.timed |= 1 << (t - 1);
        let task = self.at_mut(t);
        task.kind = TIMED;
        task.due = due;
    }

    /// A task goes dormant.
    fn retire(&mut self, t: u32) {
        match self.at(t).status {
            READY => self.leave_ready(t),
            WAIT | WAIT_SUSPEND => self.leave_wait(t),
            _ => {}
        }
        let task = self.at_mut(t);
        task.status = DORMANT;
        task.priority = task.start;
        task.wakeups = 0;
    }

    /// A dormant task is no more.
    fn delete(&mut self, t: u32) {
        *self.at_mut(t) = Task {
            status: ABSENT,
            ..Task::default()
        };
    }

    fn is_waiting(&self, t: u32) -> bool {
        matches!(self.at(t).status, WAIT | WAIT_SUSPEND)
    }

    // ---- calls on tasks

    fn task_id(&self, a: i32) -> Result<u32, i32> {
        within(a, self.tasks, E_NOEXS)
    }

    fn there(&self, t: u32) -> Result<(), i32> {
        if self.at(t).status == ABSENT {
            Err(E_NOEXS)
        } else {
            Ok(())
        }
    }

    fn not_dormant(&self, t: u32) -> Result<(), i32> {
        if self.at(t).status == DORMANT {
            Err(E_DMT)
        } else {
            Ok(())
        }
    }

    fn sta_tsk(&mut self, by: Caller, a: i32) -> Result<Said, i32> {
        let t = self.task_id(a)?;
        by.any()?;
        self.start_task(t)?;
        DONE
    }

    fn start_task(&mut self, t: u32) -> Result<(), i32> {
        self.there(t)?;
        let task = self.at_mut(t);
        if task.status != DORMANT {
            return Err(H_NODMT);
        }
        task.code = 0;
        task.word = 0;
        self.make_ready(t);
        Ok(())
    }

    fn ext_tsk(&mut self, by: Caller) -> Result<Said, i32> {
        let me = by.task()?;
        self.retire(me);
        DONE
    }

    fn ter_tsk(&mut self, by: Caller, a: i32) -> Result<Said, i32> {
        let t = self.task_id(a)?;
        let me = by.task()?;
        self.there(t)?;
        if me == t {
            return Err(E_SELF);
        }
        self.not_dormant(t)?;
        self.retire(t);
        DONE
    }

    fn cre_tsk(&mut self, by: Caller, a: i32, b: i32) -> Result<Said, i32> {
        let t = self.task_id(a)?;
        let p = within(b, self.priorities, E_TPRI)?;
        by.task()?;
        let task = self.at_mut(t);
        if task.status != ABSENT {
            return Err(H_EXIST);
        }
        task.status = DORMANT;
        task.start = p;
        task.priority = p;
        DONE
    }

    fn del_tsk(&mut self, by: Caller, a: i32) -> Result<Said, i32> {
        let t = self.task_id(a)?;
        by.task()?;
        self.there(t)?;
        if self.at(t).status != DORMANT {
            return Err(H_NODMT);
        }
        self.delete(t);
        DONE
    }

    fn exd_tsk(&mut self, by: Caller) -> Result<Said, i32> {
        let me = by.task()?;
        self.retire(me);
        self.delete(me);
        DONE
    }

    fn chg_pri(&mut self, by: Caller, a: i32, b: i32) -> Result<Said, i32> {
        let t = self.task_id(a)?;
        let p = within(b, self.priorities, E_TPRI)?;
        by.any()?;
        self.there(t)?;
        self.not_dormant(t)?;
        if self.at(t).status == READY {
            self.leave_ready(t);
            self.at_mut(t).priority = p;
            self.enter_ready(t);
        } else {
            self.at_mut(t).priority = p;
        }
        DONE
    }

    fn rot_rdq(&mut self, by: Caller, a: i32) -> Result<Said, i32> {
        if a as u32 > self.priorities {
            return Err(E_TPRI);
        }
        by.any()?;
        let t = if a == 0 {
            self.best()
        } else {
            self.queue.first(ready_anchor(a as u32))
        };
        if t != 0 {
            let anchor = ready_anchor(self.at(t).priority);
            self.queue.leave(t);
            self.queue.push(anchor, t);
        }
        DONE
    }

    fn rel_wai(&mut self, by: Caller, a: i32) -> Result<Said, i32> {
        let t = self.task_id(a)?;
        by.any()?;
        self.there(t)?;
        if !self.is_waiting(t) {
            return Err(E_NOWAI);
        }
        self.release(t, E_RLWAI, 0);
        released(1)
    }

    fn sus_tsk(&mut self, by: Caller, a: i32) -> Result<Said, i32> {
        let t = self.task_id(a)?;
        by.any()?;
        self.there(t)?;
        if by.me == t {
            return Err(E_SELF);
        }
        match self.at(t).status {
            DORMANT => Err(E_DMT),
            READY => {
                self.leave_ready(t);
                self.at_mut(t).status = SUSPEND;
                DONE
            }
            WAIT => {
                self.at_mut(t).status = WAIT_SUSPEND;
                DONE
            }
            _ => Err(H_SUS),
        }
    }

    fn rsm_tsk(&mut self, by: Caller, a: i32) -> Result<Said, i32> {
        let t = self.task_id(a)?;
        by.any()?;
        self.there(t)?;
        match self.at(t).status {
            SUSPEND => self.make_ready(t),
            WAIT_SUSPEND => self.at_mut(t).status = WAIT,
            _ => return Err(E_NOSUS),
        }
        DONE
    }

    fn slp_tsk(&mut self, by: Caller) -> Result<Said, i32> {
        let me = by.task()?;
        let task = self.at_mut(me);
        if task.wakeups != 0 {
            task.wakeups -= 1;
            return DONE;
        }
        self.sleep(me, 0);
        CALLER_WAITS
    }

    fn wai_tsk(&mut self, by: Caller, a: i32) -> Result<Said, i32> {
        if a < -1 {
            return Err(E_ILTIME);
        }
        let me = by.task()?;
        let task = self.at_mut(me);
        if task.wakeups != 0 {
            task.wakeups -= 1;
            return DONE;
        }
        if a == 0 {
            return Err(E_TMOUT);
        }
        self.sleep(me, a.max(0) as u32);
        CALLER_WAITS
    }

    fn wup_tsk(&mut self, by: Caller, a: i32) -> Result<Said, i32> {
        let t = self.task_id(a)?;
        by.any()?;
        if by.me == t {
            return Err(E_SELF);
        }
        released(self.wake(t)?)
    }

    /// Gives how many tasks are released.
    fn wake(&mut self, t: u32) -> Result<u32, i32> {
        self.there(t)?;
        self.not_dormant(t)?;
        if self.is_waiting(t) && self.at(t).kind <= TIMED {
            self.release(t, 0, 0);
            return Ok(1);
        }
        let task = self.at_mut(t);
        if task.wakeups == 15 {
            return Err(E_QOVR);
        }
        task.wakeups += 1;
        Ok(0)
    }

    fn can_wup(&mut self, by: Caller, a: i32) -> Result<Said, i32> {
        let t = self.task_id(a)?;
        by.any()?;
        self.there(t)?;
        self.not_dormant(t)?;
        gives(std::mem::take(&mut self.at_mut(t).wakeups), 0)
    }

    fn tsk_sts(&self, by: Caller, a: i32) -> Result<Said, i32> {
        let t = self.task_id(a)?;
        by.any()?;
        self.there(t)?;
        let status = match self.at(t).status {
            READY if t == self.running => RUN,
            status => status,
        };
        gives(status, self.at(t).priority)
    }

    // ---- calls on semaphores

    fn first_waiter(&self, kind: u32, object: u32) -> u32 {
        self.queue.first(wait_anchor(kind, object))
    }

    fn semaphore_id(&self, a: i32) -> Result<u32, i32> {
        within(a, self.semaphores, E_NOEXS)
    }

    fn sig_sem(&mut self, by: Caller, a: i32) -> Result<Said, i32> {
        let s = self.semaphore_id(a)?;
        by.any()?;
        let t = self.first_waiter(SEMAPHORE, s);
        if t != 0 {
            self.release(t, 0, 0);
            return released(1);
        }
        let count = &mut self.count[s as usize];
        if *count == 65535 {
            return Err(E_QOVR);
        }
        *count += 1;
        DONE
    }

    fn wai_sem(&mut self, by: Caller, a: i32) -> Result<Said, i32> {
        let s = self.semaphore_id(a)?;
        let me = by.task()?;
        let count = &mut self.count[s as usize];
        if *count != 0 {
            *count -= 1;
            return DONE;
        }
        self.wait(me, SEMAPHORE, s);
        CALLER_WAITS
    }

    fn preq_sem(&mut self, by: Caller, a: i32) -> Result<Said, i32> {
        let s = self.semaphore_id(a)?;
        by.any()?;
        let count = &mut self.count[s as usize];
        if *count == 0 {
            return Err(H_POLL);
        }
        *count -= 1;
        DONE
    }

    fn sem_sts(&self, by: Caller, a: i32) -> Result<Said, i32> {
        let s = self.semaphore_id(a)?;
        by.any()?;
        gives(self.first_waiter(SEMAPHORE, s), self.count[s as usize])
    }

    // ---- calls on flags

    fn flag_id(&self, a: i32) -> Result<u32, i32> {
        within(a, self.flags, E_NOEXS)
    }

    fn set_flg(&mut self, by: Caller, a: i32, b: i32) -> Result<Said, i32> {
        let f = self.flag_id(a)?;
        by.any()?;
        let anchor = wait_anchor(FLAG, f);
        let mut have = self.pattern[f as usize] | b as u32;
        let mut looked = 0;
        let mut n = 0;
        let mut t = self.queue.next(anchor);
        while t != anchor {
            let next = self.queue.next(t);
            let Task { wish, mode, .. } = *self.at(t);
            looked += 1;
            if meets(have, wish, mode) {
                self.release(t, 0, have);
                n += 1;
                if mode & 2 != 0 {
                    // a cleared pattern meets no wish
                    have = 0;
                    break;
                }
            }
            t = next;
        }
        self.pattern[f as usize] = have;
        Ok(Said {
            code: 0,
            w1: looked,
            w2: 0,
            released: n,
        })
    }

    fn clr_flg(&mut self, by: Caller, a: i32, b: i32) -> Result<Said, i32> {
        let f = self.flag_id(a)?;
        by.any()?;
        self.pattern[f as usize] &= b as u32;
        DONE
    }

    fn wish(&self, a: i32, b: i32, c: i32) -> Result<(u32, u32, u32), i32> {
        let f = self.flag_id(a)?;
        if b == 0 || c as u32 > 3 {
            return Err(H_PAR);
        }
        Ok((f, b as u32, c as u32))
    }

    /// Whether the pattern meets the wish: the pattern before clearing.
    fn take_pattern(&mut self, f: u32, wish: u32, mode: u32) -> Option<u32> {
        let pattern = &mut self.pattern[f as usize];
        let have = *pattern;
        if !meets(have, wish, mode) {
            return None;
        }
        if mode & 2 != 0 {
            *pattern = 0;
        }
        Some(have)
    }

    fn wai_flg(&mut self, by: Caller, a: i32, b: i32, c: i32) -> Result<Said, i32> {
        let (f, wish, mode) = self.wish(a, b, c)?;
        let me = by.task()?;
        if let Some(have) = self.take_pattern(f, wish, mode) {
            return gives(have, 0);
        }
        let task = self.at_mut(me);
        task.wish = wish;
        task.mode = mode;
        self.wait(me, FLAG, f);
        CALLER_WAITS
    }

    fn pol_flg(&mut self, by: Caller, a: i32, b: i32, c: i32) -> Result<Said, i32> {
        let (f, wish, mode) = self.wish(a, b, c)?;
        by.any()?;
        match self.take_pattern(f, wish, mode) {
            Some(have) => gives(have, 0),
            None => Err(H_POLL),
        }
    }

    fn flg_sts(&self, by: Caller, a: i32) -> Result<Said, i32> {
        let f = self.flag_id(a)?;
        by.any()?;
        gives(self.first_waiter(FLAG, f), self.pattern[f as usize])
    }

    // ---- calls on mailboxes

    fn mailbox_id(&self, a: i32) -> Result<u32, i32> {
        within(a, self.mailboxes, E_NOEXS)
    }

    fn snd_msg(&mut self, by: Caller, a: i32, b: i32) -> Result<Said, i32> {
        let m = self.mailbox_id(a)?;
        let j = within(b, self.messages, H_PAR)?;
        by.any()?;
        if self.mailbox[j as usize] != 0 {
            return Err(H_MSG);
        }
        let t = self.first_waiter(MAILBOX, m);
        if t != 0 {
            self.release(t, 0, j);
            return released(1);
        }
        self.mailbox[j as usize] = m;
        self.mail.push(mail_anchor(m), j);
        DONE
    }

    /// The first message of a mailbox, taken out; 0 if there is none.
    fn take_message(&mut self, m: u32) -> u32 {
        let j = self.mail.first(mail_anchor(m));
        if j != 0 {
            self.mail.leave(j);
            self.mailbox[j as usize] = 0;
        }
        j
    }

    fn rcv_msg(&mut self, by: Caller, a: i32) -> Result<Said, i32> {
        let m = self.mailbox_id(a)?;
        let me = by.task()?;
        let j = self.take_message(m);
        if j != 0 {
            return gives(j, 0);
        }
        self.wait(me, MAILBOX, m);
        CALLER_WAITS
    }

    fn prcv_msg(&mut self, by: Caller, a: i32) -> Result<Said, i32> {
        let m = self.mailbox_id(a)?;
        by.any()?;
        match self.take_message(m) {
            0 => Err(H_POLL),
            j => gives(j, 0),
        }
    }

    fn mbx_sts(&self, by: Caller, a: i32) -> Result<Said, i32> {
        let m = self.mailbox_id(a)?;
        by.any()?;
        gives(
            self.first_waiter(MAILBOX, m),
            self.mail.first(mail_anchor(m)),
        )
    }

    // ---- calls on pools

    fn pool_id(&self, a: i32) -> Result<u32, i32> {
        within(a, self.pools, E_NOEXS)
    }

    /// Free, behind all others of its pool.
    fn free_block(&mut self, p: u32, k: u32) {
        self.free[p as usize] |= 1 << (k - 1);
        self.blocks.push(free_anchor(p), block_node(p, k));
    }

    /// The block that is free the longest, taken; 0 if there is none.
    fn take_block(&mut self, p: u32) -> u32 {
        let node = self.blocks.first(free_anchor(p));
        if node == 0 {
            return 0;
        }
        let k = node - block_node(p, 0);
        self.blocks.leave(node);
        self.free[p as usize] &= !(1 << (k - 1));
        k
    }

    fn get_blk(&mut self, by: Caller, a: i32) -> Result<Said, i32> {
        let p = self.pool_id(a)?;
        let me = by.task()?;
        let k = self.take_block(p);
        if k != 0 {
            return gives(k, 0);
        }
        self.wait(me, POOL, p);
        CALLER_WAITS
    }

    fn pget_blk(&mut self, by: Caller, a: i32) -> Result<Said, i32> {
        let p = self.pool_id(a)?;
        by.any()?;
        match self.take_block(p) {
            0 => Err(H_POLL),
            k => gives(k, 0),
        }
    }

    fn rel_blk(&mut self, by: Caller, a: i32, b: i32) -> Result<Said, i32> {
        let p = self.pool_id(a)?;
        by.any()?;
        let k = within(b, self.size[p as usize], H_ILBLK)?;
        if self.free[p as usize] >> (k - 1) & 1 != 0 {
            return Err(H_ILBLK);
        }
        let t = self.queue.first(wait_anchor(POOL, p));
        if t != 0 {
            self.release(t, 0, k);
            return released(1);
        }
        self.free_block(p, k);
        DONE
    }

    fn mpl_sts(&self, by: Caller, a: i32) -> Result<Said, i32> {
        let p = self.pool_id(a)?;
        by.any()?;
        gives(
            self.first_waiter(POOL, p),
            self.free[p as usize].count_ones(),
        )
    }

    // ---- calls on alarms

    fn alarm_id(&self, a: i32) -> Result<u32, i32> {
        if self.round == 0 {
            return Err(H_PAR);
        }
        within(a, ALARMS as u32, H_PAR)
    }

    fn is_used(&self, i: u32) -> bool {
        self.used >> (i - 1) & 1 != 0
    }

    /// So many counts behind another one; both are at most the round.
    fn set_alarm(
        &mut self,
        by: Caller,
        a: i32,
        from: u32,
        count: i32,
        period: i32,
    ) -> Result<Said, i32> {
        let i = self.alarm_id(a)?;
        if count as u32 > self.round || period as u32 > self.round {
            return Err(H_PAR);
        }
        by.any()?;
        if self.is_used(i) {
            return Err(H_USED);
        }
        self.alarm[i as usize].period = period as u32;
        self.arm(i, self.reduced(from + count as u32));
        DONE
    }

    /// The ticks until the counter reaches a count: 1 to the round.
    fn distance(&self, count: u32) -> u32 {
        if count > self.present {
            count - self.present
        } else {
            count + self.round - self.present
        }
    }

    fn arm(&mut self, i: u32, expiry: u32) {
        let left = self.distance(expiry);
        if self.used == 0 || left < self.until {
            self.until = left;
        }
        self.used |= 1 << (i - 1);
        self.alarm[i as usize].expiry = expiry;
    }

    /// The remainder of what is below two rounds.
    fn reduced(&self, count: u32) -> u32 {
        if count < self.round {
            count
        } else {
            count - self.round
        }
    }

    fn can_alm(&mut self, by: Caller, a: i32) -> Result<Said, i32> {
        let i = self.alarm_id(a)?;
        by.any()?;
        if !self.is_used(i) {
            return Err(H_IDLE);
        }
        self.used &= !(1 << (i - 1));
        DONE
    }

    fn alm_sts(&self, by: Caller, a: i32) -> Result<Said, i32> {
        let i = self.alarm_id(a)?;
        by.any()?;
        let kept = self.alarm[i as usize].kept;
        gives(u32::from(self.is_used(i)), kept.unsigned_abs())
    }

    /// The counter's step in a tick: gives how many tasks the alarms release.
    fn count_on(&mut self) -> u32 {
        self.present = self.reduced(self.present + 1);
        if self.used == 0 {
            return 0;
        }
        self.until -= 1;
        if self.until == 0 {
            self.look_at_alarms()
        } else {
            0
        }
    }

    /// Those that are due fire; the next look is at the first of the others and of those set again.
    fn look_at_alarms(&mut self) -> u32 {
        let mut left = std::mem::take(&mut self.used);
        let mut n = 0;
        while left != 0 {
            let i = left.trailing_zeros() + 1;
            left &= left - 1;
            let Alarm { expiry, period, .. } = self.alarm[i as usize];
            if expiry != self.present {
                self.arm(i, expiry);
                continue;
            }
            n += self.fire(i);
            if period != 0 {
                self.arm(i, self.reduced(self.present + period));
            }
        }
        n
    }

    fn fire(&mut self, i: u32) -> u32 {
        let Alarm { task, wakes, .. } = self.alarm[i as usize];
        let done = if wakes != 0 {
            self.wake(task)
        } else {
            self.start_task(task).map(|()| 0)
        };
        self.alarm[i as usize].kept = done.err().unwrap_or(0);
        done.unwrap_or(0)
    }

    // ---- events

    #[inline(never)]
    fn call(&mut self, by: Caller, n: i32, a: i32, b: i32, c: i32) -> Answer {
        let said = match n {
            1 => self.sta_tsk(by, a),
            2 => self.ext_tsk(by),
            3 => self.ter_tsk(by, a),
            4 => self.chg_pri(by, a, b),
            5 => self.rot_rdq(by, a),
            6 => self.rel_wai(by, a),
            7 => self.sus_tsk(by, a),
            8 => self.rsm_tsk(by, a),
            9 => self.slp_tsk(by),
            10 => self.wai_tsk(by, a),
            11 => self.wup_tsk(by, a),
            12 => self.can_wup(by, a),
            13 => self.sig_sem(by, a),
            14 => self.wai_sem(by, a),
            15 => self.preq_sem(by, a),
            16 => self.set_flg(by, a, b),
            17 => self.clr_flg(by, a, b),
            18 => self.wai_flg(by, a, b, c),
            19 => self.pol_flg(by, a, b, c),
            20 => self.snd_msg(by, a, b),
            21 => self.rcv_msg(by, a),
            22 => self.prcv_msg(by, a),
            23 => self.get_blk(by, a),
            24 => self.pget_blk(by, a),
            25 => self.rel_blk(by, a, b),
            26 => by.any().and(gives(self.running, 0)),
            27 => self.tsk_sts(by, a),
            28 => self.sem_sts(by, a),
            29 => self.flg_sts(by, a),
            30 => self.mbx_sts(by, a),
            31 => self.mpl_sts(by, a),
            32 => by
                .any()
                .and(gives((self.clock >> 32) as u32, self.clock as u32)),
            33 => self.cre_tsk(by, a, b),
            34 => self.del_tsk(by, a),
            35 => self.exd_tsk(by),
            36 => self.set_alarm(by, a, 0, b, c),
            37 => self.set_alarm(by, a, self.present, b, c),
            38 => self.can_alm(by, a),
            39 => self.alm_sts(by, a),
            _ => Err(H_CALL),
        };
        self.told(said)
    }

    /// Gives how many tasks are released.
    #[inline(never)]
    fn tick(&mut self) -> u32 {
        self.clock = (self.clock + 1) & ((1 << 48) - 1);
        let mut n = 0;
        if self.timed != 0 && self.now() == self.soonest {
            n += self.look_at_waits();
        }
        if self.round != 0 {
            n += self.count_on();
        }
        n
    }

    /// Those that are due end; the next look is when the first of the others is.
    fn look_at_waits(&mut self) -> u32 {
        let now = self.now();
        let mut left = self.timed;
        let mut soonest = u32::MAX;
        let mut n = 0;
        while left != 0 {
            let t = left.trailing_zeros() + 1;
            left &= left - 1;
            let ticks = self.at(t).due.wrapping_sub(now);
            if ticks == 0 {
                self.release(t, E_TMOUT, 0);
                n += 1;
            } else {
                soonest = soonest.min(ticks);
            }
        }
        self.soonest = now.wrapping_add(soonest);
        n
    }

    fn enter(&mut self) -> Result<Said, i32> {
        if self.depth == 15 {
            return Err(H_NEST);
        }
        self.depth += 1;
        DONE
    }

    fn leave(&mut self) -> Result<Said, i32> {
        if self.depth == 0 {
            return Err(E_CTX);
        }
        self.depth -= 1;
        DONE
    }

    /// An event of five words: kind (0 task, 1 handler, 2 tick, 3 entry, 4 return), call, a, b, c.
    #[inline]
    pub fn event(&mut self, e: &[i32; 5]) -> Answer {
        let [kind, n, a, b, c] = *e;
        let said = match kind {
            0 => return self.call(Caller::in_task(self), n, a, b, c),
            1 => return self.call(Caller::in_handler(self), n, a, b, c),
            2 => released(self.tick()),
            3 => self.enter(),
            4 => self.leave(),
            _ => Err(H_CALL),
        };
        self.told(said)
    }

    /// What comes back, once it is clear who runs.
    #[inline(always)]
    fn told(&mut self, said: Result<Said, i32>) -> Answer {
        match said {
            Ok(said) => {
                self.dispatch();
                Answer {
                    code: said.code,
                    w1: said.w1,
                    w2: said.w2,
                    running: self.running,
                    released: said.released,
                }
            }
            Err(code) => Answer {
                code,
                w1: 0,
                w2: 0,
                running: self.running,
                released: 0,
            },
        }
    }

    /// The same on a state that may be damaged: the first rule broken if it is, and the smallest id.
    #[inline]
    pub fn checked_event(&mut self, e: &[i32; 5]) -> Answer {
        if !self.is_sound() {
            let (code, id) = self.breach();
            return Answer {
                code,
                w1: id,
                ..Answer::default()
            };
        }
        self.event(e)
    }

    /// A task's answer cell: code and word; E_NOEXS for a bad id, and for one that is not there.
    pub fn cell(&self, task: i32) -> (i32, u32) {
        let found = self.task_id(task).and_then(|t| self.there(t).map(|()| t));
        match found {
            Ok(t) => (self.at(t).code, self.at(t).word),
            Err(code) => (code, 0),
        }
    }

    // ---- the check of a state that may be damaged

    /// Whether the state keeps every rule of "A sound state", and the masks tell what they should.
    pub fn is_sound(&self) -> bool {
        self.ranges_are_sound()
            && self.tasks_are_sound()
            && self.queues_are_sound()
            && self.mail_is_sound()
            && self.blocks_are_sound()
            && self.is_run()
    }

    fn ranges_are_sound(&self) -> bool {
        let counts = (1..=16).contains(&self.priorities)
            && (1..=32).contains(&self.tasks)
            && self.semaphores <= 16
            && self.flags <= 16
            && self.mailboxes <= 16
            && self.messages <= 256
            && self.pools <= 8
            && self.clock < 1 << 48;
        counts
            && self.alarms_are_sound()
            && self.count[1..=self.semaphores as usize]
                .iter()
                .all(|&n| n <= 65535)
            && (1..=self.pools as usize).all(|p| {
                (1..=32).contains(&self.size[p]) && self.free[p] & !all_free(self.size[p]) == 0
            })
    }

    /// Without a counter nothing of the alarms counts.
    fn alarms_are_sound(&self) -> bool {
        self.round == 0
            || self.round <= 65535
                && self.present < self.round
                && self.used < 1 << ALARMS
                && (1..=ALARMS as u32).all(|i| self.is_alarm_sound(i))
    }

    fn is_alarm_sound(&self, i: u32) -> bool {
        let alarm = &self.alarm[i as usize];
        let kept = match alarm.wakes {
            0 => matches!(alarm.kept, 0 | E_NOEXS | H_NODMT),
            1 => matches!(alarm.kept, 0 | E_NOEXS | E_DMT | E_QOVR),
            _ => false,
        };
        let due = alarm.expiry < self.round && alarm.period <= self.round;
        kept && alarm.task.wrapping_sub(1) < self.tasks && (due || !self.is_used(i))
    }

    /// Of a timed wait.
    fn left(&self, task: &Task) -> u32 {
        task.due.wrapping_sub(self.now())
    }

    fn is_wait_sound(&self, task: &Task, t: u32) -> bool {
        let exists = |n: u32| task.object.wrapping_sub(1) < n;
        let o = task.object as usize;
        match task.kind {
            SLEEP => task.wakeups == 0,
            TIMED => {
                let left = self.left(task);
                task.wakeups == 0
                    && left.wrapping_sub(1) < i32::MAX as u32
                    && self.soonest.wrapping_sub(self.now()).wrapping_sub(1) < left
                    && self.timed >> (t - 1) & 1 == 1
            }
            SEMAPHORE => exists(self.semaphores) && self.count[o] == 0,
            FLAG => {
                exists(self.flags)
                    && task.wish != 0
                    && task.mode <= 3
                    && !meets(self.pattern[o], task.wish, task.mode)
            }
            MAILBOX => exists(self.mailboxes) && self.mail.is_empty(mail_anchor(task.object)),
            POOL => exists(self.pools) && self.free[o] == 0,
            _ => false,
        }
    }

    /// A task that is not there has nothing.
    fn is_nothing(task: &Task) -> bool {
        task.priority == 0
            && task.start == 0
            && task.wakeups == 0
            && task.code == 0
            && task.word == 0
    }

    fn is_task_sound(&self, t: u32) -> bool {
        let task = self.at(t);
        if task.status == ABSENT {
            return Self::is_nothing(task);
        }
        let ranges = task.priority.wrapping_sub(1) < self.priorities
            && task.start.wrapping_sub(1) < self.priorities
            && task.wakeups <= 15
            && match task.code {
                0 => true,
                E_TMOUT | E_RLWAI => task.word == 0,
                _ => false,
            };
        ranges
            && match task.status {
                DORMANT => task.wakeups == 0 && task.priority == task.start,
                READY | SUSPEND => true,
                WAIT | WAIT_SUSPEND => self.is_wait_sound(task, t),
                _ => false,
            }
    }

    fn tasks_are_sound(&self) -> bool {
        let timed = |t: u32| self.is_waiting(t) && self.at(t).kind == TIMED;
        (1..=self.tasks).all(|t| self.is_task_sound(t))
            && (1..=32).all(|t| self.timed >> (t - 1) & 1 == 0 || t <= self.tasks && timed(t))
    }

    /// The anchor behind which a task stands, 0 if in no queue.
    fn home(&self, t: u32) -> u32 {
        let task = self.at(t);
        match task.status {
            READY => ready_anchor(task.priority),
            WAIT | WAIT_SUSPEND if task.kind >= SEMAPHORE => wait_anchor(task.kind, task.object),
            _ => 0,
        }
    }

    fn queues_are_sound(&self) -> bool {
        let rings = [
            (ready_anchor(1), self.priorities),
            (wait_anchor(SEMAPHORE, 1), self.semaphores),
            (wait_anchor(FLAG, 1), self.flags),
            (wait_anchor(MAILBOX, 1), self.mailboxes),
            (wait_anchor(POOL, 1), self.pools),
        ];
        let mut met = 0;
        let walk = |(anchor, many)| {
            self.queue
                .walk(self.tasks, anchor, many, |t| self.home(t), &mut met)
        };
        let walked = rings.into_iter().all(walk);
        walked && met == (1..=self.tasks).filter(|t| self.home(*t) != 0).count()
    }

    fn mail_is_sound(&self) -> bool {
        let home = |j: u32| match self.mailbox[j as usize] {
            0 => 0,
            // a mark too large for a mailbox stays no anchor
            m => mail_anchor(0).saturating_add(m),
        };
        let marked = &self.mailbox[1..=self.messages as usize];
        let mut met = 0;
        let walked = self.mail.walk(
            self.messages,
            mail_anchor(1),
            self.mailboxes,
            home,
            &mut met,
        );
        walked && met == marked.iter().filter(|m| **m != 0).count()
    }

    fn blocks_are_sound(&self) -> bool {
        let home = |node: u32| {
            let (p, bit) = ((node + 31) / 32, (node - 1) % 32);
            let free = self.free[p as usize] >> bit & 1;
            free * free_anchor(p)
        };
        let free = &self.free[1..=self.pools as usize];
        let mut met = 0;
        let walked = self
            .blocks
            .walk(32 * self.pools, free_anchor(1), self.pools, home, &mut met);
        walked && met == free.iter().map(|free| free.count_ones() as usize).sum()
    }

    /// The mask of the ready queues, the depth, and who runs or was interrupted.
    fn is_run(&self) -> bool {
        let mut ready: u32 = 0;
        for p in 1..=self.priorities {
            if !self.queue.is_empty(ready_anchor(p)) {
                ready |= 1 << (p - 1);
            }
        }
        self.ready == ready
            && self.depth <= 15
            && self.is_running_sound()
            && self.is_next_look_sound()
    }

    /// No alarm in use fires before the next look at them.
    fn is_next_look_sound(&self) -> bool {
        let early =
            |i: &u32| self.until.wrapping_sub(1) >= self.distance(self.alarm[*i as usize].expiry);
        let mut used = (1..=ALARMS as u32).filter(|i| self.is_used(*i));
        self.round == 0 || !used.any(|i| early(&i))
    }

    fn is_running_sound(&self) -> bool {
        if self.depth == 0 {
            return self.running == self.best();
        }
        let t = self.running;
        t == 0 || t <= self.tasks && matches!(self.at(t).status, READY | SUSPEND)
    }
}

impl<const N: usize> Rings<N> {
    /// Walks the rings of `many` anchors from `anchor` on and counts whom it meets. False if a link is damaged or leads to a node that is
    /// none of 1 to n, or has its home elsewhere. A node is met once, since its backward link is the only way to it.
    fn walk(
        &self,
        n: u32,
        anchor: u32,
        many: u32,
        home: impl Fn(u32) -> u32,
        met: &mut usize,
    ) -> bool {
        for a in anchor..anchor + many {
            let mut x = a;
            loop {
                let y = self.next(x);
                if y as usize >= N || self.link[y as usize].prev != x {
                    return false;
                }
                if y == a {
                    break;
                }
                if y.wrapping_sub(1) >= n || home(y) != a {
                    return false;
                }
                *met += 1;
                x = y;
            }
        }
        true
    }
}

#[cfg(test)]
mod tests;
