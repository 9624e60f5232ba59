//! The plain kernel of the paper, written from the paper alone and in the plainest way: arrival numbers, and no queue that outlives the
//! look at it. It is fed the setup and the events and nothing of the other kernel's.
use crate::picture::{
    meets, Alarm, Counter, Due, Object, Picture, Queues, Standing, Task, Wait, ABSENT, CLOCK_END,
};
use crate::setup::{self, Setup, ALARMS};

pub const H_CALL: i32 = -1;
pub const H_PAR: i32 = -2;
pub const H_NODMT: i32 = -3;
pub const H_SUS: i32 = -4;
pub const H_POLL: i32 = -5;
pub const H_MSG: i32 = -6;
pub const H_NEST: i32 = -7;
pub const H_EXIST: i32 = -8;
pub const H_ILBLK: i32 = -10;
pub const H_USED: i32 = -11;
pub const H_IDLE: i32 = -12;
pub const E_TPRI: i32 = -1830;
pub const E_ILTIME: i32 = -1831;
pub const E_SELF: i32 = -2097;
pub const E_NOEXS: i32 = -2100;
pub const E_DMT: i32 = -2101;
pub const E_NOSUS: i32 = -2104;
pub const E_NOWAI: i32 = -2110;
pub const E_CTX: i32 = -2629;
pub const E_QOVR: i32 = -2889;
pub const E_TMOUT: i32 = -3413;
pub const E_RLWAI: i32 = -3414;
/// The caller must wait.
const WAITS: i32 = 1;

pub const DEPTH_MOST: u32 = 15;
const WAKEUPS_MOST: u32 = 15;
const SEMAPHORE_MOST: u32 = 65535;
const TASK: i32 = 0;
const HANDLER: i32 = 1;
const STA_TSK: i32 = 1;
const WUP_TSK: i32 = 11;
pub const CRE_TSK: i32 = 33;
pub const DEL_TSK: i32 = 34;
pub const EXD_TSK: i32 = 35;
pub const SET_ABS: i32 = 36;
pub const SET_REL: i32 = 37;
pub const CAN_ALM: i32 = 38;
pub const ALM_STS: i32 = 39;
/// The number of calls.
pub const CALLS: i32 = 39;
const TASK_ONLY: [i32; 11] = [2, 3, 9, 10, 14, 18, 21, 23, 33, 34, 35];

/// A tick, a handler's entry or return, or a call.
#[derive(Clone, Copy, PartialEq, Eq, Debug)]
pub enum Event {
    Tick,
    Enter,
    Leave,
    Call {
        context: i32,
        number: i32,
        a: i32,
        b: i32,
        c: i32,
    },
}

pub use okrozumba::Answer;

/// Code, w1, w2.
type Said = (i32, u32, u32);
const DONE: Said = (0, 0, 0);

#[derive(Clone, Debug)]
struct Kept {
    task: Task,
    arrival: u64,
}

#[derive(Clone, Debug)]
struct Message {
    /// 0 if it lies in none.
    mailbox: u32,
    arrival: u64,
}

#[derive(Clone, Debug)]
struct Block {
    free: bool,
    arrival: u64,
}

#[derive(Clone, Debug)]
pub struct Plain {
    priorities: u32,
    tasks: Vec<Kept>,
    semaphores: Vec<u32>,
    flags: Vec<u32>,
    mailboxes: u32,
    messages: Vec<Message>,
    pools: Vec<Vec<Block>>,
    clock: u64,
    /// Handlers that are open.
    depth: u32,
    /// The task that ran at the outermost entry; none if none did, or no handler is open.
    interrupted: Option<u32>,
    counter: Option<Counter>,
    /// Numbers given so far.
    numbers: u64,
}

/// Who waits for a flag, and for what.
pub struct FlagWaiter {
    pub task: u32,
    pub wish: u32,
    pub mode: u32,
}

/// How many there are of each.
pub struct Counts {
    pub priorities: u32,
    pub tasks: u32,
    pub semaphores: u32,
    pub flags: u32,
    pub mailboxes: u32,
    pub messages: u32,
    pub pools: u32,
}

fn inside(id: i32, count: usize, code: i32) -> Result<(), i32> {
    if 1 <= id && id as i64 <= count as i64 {
        Ok(())
    } else {
        Err(code)
    }
}

fn refuse_if(bad: bool, code: i32) -> Result<(), i32> {
    if bad {
        Err(code)
    } else {
        Ok(())
    }
}

fn at(id: u32) -> usize {
    id as usize - 1
}

/// Whether the call's first word is a task.
pub fn names_task(number: i32) -> bool {
    matches!(
        number,
        1 | 3 | 4 | 6 | 7 | 8 | 11 | 12 | 27 | CRE_TSK | DEL_TSK
    )
}

/// Whether a wait for a flag asks for clearing.
fn clears(mode: u32) -> bool {
    mode & 2 != 0
}

/// A task as it is made: dormant.
fn made(start: u32) -> Task {
    Task {
        start,
        priority: start,
        standing: Standing::Dormant,
        wakeups: 0,
        cell: (0, 0),
    }
}

/// A counter at 0 with all alarms idle.
fn counter_of(setup: &setup::Counter) -> Counter {
    Counter {
        size: setup.size,
        present: 0,
        alarms: setup.alarms.map(|(task, wakes)| Alarm {
            task,
            wakes,
            kept: 0,
            due: None,
        }),
    }
}

/// Ids by rising number.
fn listed(mut numbered: Vec<(u64, u32)>) -> Vec<u32> {
    numbered.sort();
    numbered.into_iter().map(|(_, id)| id).collect()
}

/// Blocks with such marks, and no number yet.
fn blocks_of(free: &[bool]) -> Vec<Block> {
    let block = |free: &bool| Block {
        free: *free,
        arrival: 0,
    };
    free.iter().map(block).collect()
}

// ---- a fresh kernel

impl Plain {
    pub fn fresh(setup: &Setup) -> Plain {
        let mut plain = Plain {
            priorities: setup.priorities,
            tasks: setup
                .tasks
                .iter()
                .map(|t| Kept {
                    task: made(t.0),
                    arrival: 0,
                })
                .collect(),
            semaphores: setup.semaphores.clone(),
            flags: setup.flags.clone(),
            mailboxes: setup.mailboxes,
            messages: vec![
                Message {
                    mailbox: 0,
                    arrival: 0
                };
                setup.messages as usize
            ],
            pools: setup
                .pools
                .iter()
                .map(|blocks| blocks_of(&vec![true; *blocks as usize]))
                .collect(),
            clock: 0,
            depth: 0,
            interrupted: None,
            counter: setup.counter.as_ref().map(counter_of),
            numbers: 0,
        };
        for (id, task) in (1..).zip(&setup.tasks) {
            if task.1 {
                plain.make_ready(id);
            }
        }
        for (pool, blocks) in (1..).zip(&setup.pools) {
            (1..=*blocks).for_each(|block| plain.free(pool, block));
        }
        plain
    }

    /// A plain kernel that stands as the picture does: numbers are given queue by queue.
    pub fn standing(p: &Picture) -> Plain {
        let mut plain = Plain {
            priorities: p.priorities,
            tasks: p
                .tasks
                .iter()
                .map(|t| Kept {
                    task: t.clone(),
                    arrival: 0,
                })
                .collect(),
            semaphores: p.semaphores.clone(),
            flags: p.flags.clone(),
            mailboxes: p.mailboxes,
            messages: p
                .messages
                .iter()
                .map(|m| Message {
                    mailbox: *m,
                    arrival: 0,
                })
                .collect(),
            pools: p.pools.iter().map(|free| blocks_of(free)).collect(),
            clock: p.clock,
            depth: p.depth,
            interrupted: p.interrupted,
            counter: p.counter.clone(),
            numbers: 0,
        };
        for id in p.task_queues().into_iter().flatten().flatten() {
            plain.kept(*id).arrival = plain.number();
        }
        for id in p.mail.iter().flatten() {
            plain.messages[at(*id)].arrival = plain.number();
        }
        for (pool, queue) in (1..).zip(&p.free) {
            queue.iter().for_each(|block| plain.free(pool, *block));
        }
        plain
    }
}

// ---- looking

impl Plain {
    pub fn task(&self, id: u32) -> &Task {
        &self.tasks[at(id)].task
    }

    pub fn counts(&self) -> Counts {
        Counts {
            priorities: self.priorities,
            tasks: self.tasks.len() as u32,
            semaphores: self.semaphores.len() as u32,
            flags: self.flags.len() as u32,
            mailboxes: self.mailboxes,
            messages: self.messages.len() as u32,
            pools: self.pools.len() as u32,
        }
    }

    /// Whether a message lies in a mailbox.
    pub fn lies(&self, message: u32) -> bool {
        self.messages[at(message)].mailbox != 0
    }

    /// Whether there is such a block and it isn't free.
    pub fn is_out(&self, pool: i32, block: u32) -> bool {
        let there = self.pools.get((pool as usize).wrapping_sub(1));
        let found = there.and_then(|blocks| blocks.get(at(block)));
        found.is_some_and(|block| !block.free)
    }

    fn queue(&self, member: impl Fn(&Task) -> bool) -> Vec<u32> {
        let stand = (1..)
            .zip(&self.tasks)
            .filter(|(_, kept)| member(&kept.task));
        listed(stand.map(|(id, kept)| (kept.arrival, id)).collect())
    }

    fn ready(&self, priority: u32) -> Vec<u32> {
        self.queue(|task| task.standing == Standing::Ready && task.priority == priority)
    }

    fn waiters(&self, object: Object) -> Vec<u32> {
        self.queue(|t| matches!(t.standing.wait(), Some(Wait::On(on, _, _)) if on == object))
    }

    /// A flag's queue.
    pub fn flag_waiters(&self, id: u32) -> Vec<FlagWaiter> {
        let asks = |task| match self.task(task).standing.wait() {
            Some(Wait::On(_, wish, mode)) => FlagWaiter { task, wish, mode },
            _ => unreachable!("a waiter waits"),
        };
        let queue = self.waiters(Object::Flag(id));
        queue.into_iter().map(asks).collect()
    }

    /// The place, from 1, of the first of a queue as it was that waits no more and had asked for clearing.
    pub fn place_of_clearing(&self, queue: &[FlagWaiter]) -> Option<usize> {
        let released = |task| self.task(task).standing.wait().is_none();
        let first = queue
            .iter()
            .position(|waiter| released(waiter.task) && clears(waiter.mode));
        first.map(|ahead| ahead + 1)
    }

    fn first_waiter(&self, object: Object) -> Option<u32> {
        self.waiters(object).first().copied()
    }

    fn mail(&self, mailbox: u32) -> Vec<u32> {
        let lie = (1..)
            .zip(&self.messages)
            .filter(|(_, m)| m.mailbox == mailbox);
        listed(lie.map(|(id, m)| (m.arrival, id)).collect())
    }

    /// The head of the nonempty ready queue with the smallest priority number.
    pub fn best(&self) -> Option<u32> {
        (1..=self.priorities).find_map(|priority| self.ready(priority).first().copied())
    }

    /// The running task reported: while a handler is open, the one at the outermost entry.
    pub fn running(&self) -> Option<u32> {
        if self.depth == 0 {
            self.best()
        } else {
            self.interrupted
        }
    }

    /// How many handlers are open.
    pub fn depth(&self) -> u32 {
        self.depth
    }

    pub fn cell(&self, id: i32) -> (i32, u32) {
        let inside = inside(id, self.tasks.len(), E_NOEXS);
        match inside.and_then(|()| self.judge_there(id as u32)) {
            Ok(()) => self.task(id as u32).cell,
            Err(code) => (code, 0),
        }
    }

    /// A pool's free blocks, the longest free one first.
    pub fn free_blocks(&self, pool: u32) -> Vec<u32> {
        let free = (1..)
            .zip(&self.pools[at(pool)])
            .filter(|(_, block)| block.free);
        listed(free.map(|(id, block)| (block.arrival, id)).collect())
    }

    /// What it shows: its queues listed by number, and all else but the numbers.
    pub fn picture(&self) -> Picture {
        let of = |many: usize, object: fn(u32) -> Object| -> Queues {
            (1..=many as u32)
                .map(|id| self.waiters(object(id)))
                .collect()
        };
        Picture {
            priorities: self.priorities,
            tasks: self.tasks.iter().map(|kept| kept.task.clone()).collect(),
            semaphores: self.semaphores.clone(),
            flags: self.flags.clone(),
            mailboxes: self.mailboxes,
            messages: self.messages.iter().map(|m| m.mailbox).collect(),
            pools: self
                .pools
                .iter()
                .map(|blocks| blocks.iter().map(|block| block.free).collect())
                .collect(),
            clock: self.clock,
            depth: self.depth,
            interrupted: self.interrupted,
            ready: (1..=self.priorities)
                .map(|priority| self.ready(priority))
                .collect(),
            semaphore_waiters: of(self.semaphores.len(), Object::Semaphore),
            flag_waiters: of(self.flags.len(), Object::Flag),
            mailbox_waiters: of(self.mailboxes as usize, Object::Mailbox),
            pool_waiters: of(self.pools.len(), Object::Pool),
            mail: (1..=self.mailboxes)
                .map(|mailbox| self.mail(mailbox))
                .collect(),
            free: (1..=self.counts().pools)
                .map(|pool| self.free_blocks(pool))
                .collect(),
            counter: self.counter.clone(),
        }
    }
}

// ---- judging, in the paper's order; nothing can change here

impl Plain {
    fn judge(&self, context: i32, number: i32, a: i32, b: i32, c: i32) -> Result<(), i32> {
        refuse_if(!(1..=CALLS).contains(&number), H_CALL)?;
        refuse_if(context != TASK && context != HANDLER, H_CALL)?;
        self.judge_a(number, a)?;
        self.judge_b(number, b)?;
        self.judge_c(number, c)?;
        let caller = self.judge_context(context, number)?;
        if names_task(number) && number != CRE_TSK {
            self.judge_there(a as u32)?;
        }
        let oneself = context == TASK && caller == Some(a as u32);
        refuse_if(matches!(number, 3 | 7 | 11) && oneself, E_SELF)?;
        let on_active = matches!(number, 3 | 4 | 7 | 11 | 12);
        refuse_if(
            on_active && self.task(a as u32).standing == Standing::Dormant,
            E_DMT,
        )?;
        self.judge_rest(number, caller, a, b, c)
    }

    fn judge_a(&self, number: i32, a: i32) -> Result<(), i32> {
        match number {
            _ if names_task(number) => inside(a, self.tasks.len(), E_NOEXS),
            5 => refuse_if(a < 0 || a > self.priorities as i32, E_TPRI),
            10 => refuse_if(a < -1, E_ILTIME),
            13..=15 | 28 => inside(a, self.semaphores.len(), E_NOEXS),
            16..=19 | 29 => inside(a, self.flags.len(), E_NOEXS),
            20..=22 | 30 => inside(a, self.mailboxes as usize, E_NOEXS),
            23..=25 | 31 => inside(a, self.pools.len(), E_NOEXS),
            SET_ABS..=ALM_STS => {
                refuse_if(self.counter.is_none(), H_PAR)?;
                inside(a, ALARMS, H_PAR)
            }
            _ => Ok(()),
        }
    }

    fn judge_b(&self, number: i32, b: i32) -> Result<(), i32> {
        match number {
            4 | CRE_TSK => inside(b, self.priorities as usize, E_TPRI),
            18 | 19 => refuse_if(b == 0, H_PAR),
            20 => inside(b, self.messages.len(), H_PAR),
            SET_ABS | SET_REL => self.judge_count(b),
            _ => Ok(()),
        }
    }

    fn judge_c(&self, number: i32, c: i32) -> Result<(), i32> {
        match number {
            18 | 19 => refuse_if(!(0..=3).contains(&c), H_PAR),
            SET_ABS | SET_REL => self.judge_count(c),
            _ => Ok(()),
        }
    }

    /// A count or a period goes up to the counter's size.
    fn judge_count(&self, count: i32) -> Result<(), i32> {
        let size = self.counter.as_ref().map_or(0, |counter| counter.size);
        refuse_if(count < 0 || count as u32 > size, H_PAR)
    }

    /// An id in range may be nobody's.
    fn judge_there(&self, id: u32) -> Result<(), i32> {
        refuse_if(self.task(id).standing == Standing::Absent, E_NOEXS)
    }

    /// The running task, if the context suits the call and what is open.
    fn judge_context(&self, context: i32, number: i32) -> Result<Option<u32>, i32> {
        let running = self.running();
        refuse_if(context == HANDLER && TASK_ONLY.contains(&number), E_CTX)?;
        refuse_if(context == HANDLER && self.depth == 0, E_CTX)?;
        refuse_if(context == TASK && self.depth > 0, E_CTX)?;
        refuse_if(context == TASK && running.is_none(), E_CTX)?;
        Ok(running)
    }

    fn judge_rest(
        &self,
        number: i32,
        caller: Option<u32>,
        a: i32,
        b: i32,
        c: i32,
    ) -> Result<(), i32> {
        let id = a as u32;
        match number {
            1 | DEL_TSK => refuse_if(self.task(id).standing != Standing::Dormant, H_NODMT),
            6 => refuse_if(self.task(id).standing.wait().is_none(), E_NOWAI),
            7 => refuse_if(self.task(id).standing.suspended(), H_SUS),
            8 => refuse_if(!self.task(id).standing.suspended(), E_NOSUS),
            10 => refuse_if(
                a == 0 && caller.is_some_and(|me| self.task(me).wakeups == 0),
                E_TMOUT,
            ),
            11 => refuse_if(self.task(id).wakeups >= WAKEUPS_MOST, E_QOVR),
            13 => refuse_if(self.semaphores[at(id)] >= SEMAPHORE_MOST, E_QOVR),
            15 => refuse_if(self.semaphores[at(id)] == 0, H_POLL),
            19 => refuse_if(!meets(self.flags[at(id)], b as u32, c as u32), H_POLL),
            20 => refuse_if(self.messages[at(b as u32)].mailbox != 0, H_MSG),
            22 => refuse_if(self.mail(id).is_empty(), H_POLL),
            24 => refuse_if(self.free_blocks(id).is_empty(), H_POLL),
            25 => {
                inside(b, self.pools[at(id)].len(), H_ILBLK)?;
                refuse_if(self.pools[at(id)][at(b as u32)].free, H_ILBLK)
            }
            CRE_TSK => refuse_if(self.task(id).standing != Standing::Absent, H_EXIST),
            SET_ABS | SET_REL => refuse_if(self.in_use(id), H_USED),
            CAN_ALM => refuse_if(!self.in_use(id), H_IDLE),
            _ => Ok(()),
        }
    }
}

// ---- small changes

impl Plain {
    fn number(&mut self) -> u64 {
        self.numbers += 1;
        self.numbers
    }

    fn kept(&mut self, id: u32) -> &mut Kept {
        &mut self.tasks[at(id)]
    }

    fn stand(&mut self, id: u32, standing: Standing) {
        self.kept(id).task.standing = standing;
    }

    /// Last in its queue.
    fn goes_last(&mut self, id: u32) {
        self.kept(id).arrival = self.number();
    }

    /// Last of its pool's free ones.
    fn free(&mut self, pool: u32, block: u32) {
        self.pools[at(pool)][at(block)] = Block {
            free: true,
            arrival: self.number(),
        };
    }

    fn make_ready(&mut self, id: u32) {
        self.stand(id, Standing::Ready);
        self.goes_last(id);
    }

    fn put_into(&mut self, id: u32, wait: Wait) -> Said {
        self.stand(id, Standing::Wait(wait));
        self.goes_last(id);
        (WAITS, 0, 0)
    }

    /// The end of a wait by service, time or rel_wai.
    fn release(&mut self, id: u32, code: i32, word: u32) {
        self.kept(id).task.cell = (code, word);
        if self.task(id).standing.suspended() {
            self.stand(id, Standing::Suspend);
        } else {
            self.make_ready(id);
        }
    }

    fn make_dormant(&mut self, id: u32) {
        let task = &mut self.kept(id).task;
        task.standing = Standing::Dormant;
        task.wakeups = 0;
        task.priority = task.start;
    }
}

// ---- events

impl Plain {
    pub fn event(&mut self, event: Event) -> Answer {
        let before: Vec<bool> = self.waiting();
        let said = match event {
            Event::Tick => self.tick(),
            Event::Enter => self.enter(),
            Event::Leave => self.leave(),
            Event::Call {
                context,
                number,
                a,
                b,
                c,
            } => self
                .judge(context, number, a, b, c)
                .map(|()| self.perform(number, a as u32, b as u32, c as u32)),
        };
        let (code, w1, w2) = said.unwrap_or_else(|code| (code, 0, 0));
        let freed = before.iter().zip(&self.tasks).filter(|(waited, kept)| {
            **waited && matches!(kept.task.standing, Standing::Ready | Standing::Suspend)
        });
        Answer {
            code,
            w1,
            w2,
            running: self.running().unwrap_or(0),
            released: freed.count() as u32,
        }
    }

    fn waiting(&self) -> Vec<bool> {
        self.tasks
            .iter()
            .map(|kept| kept.task.standing.wait().is_some())
            .collect()
    }

    fn enter(&mut self) -> Result<Said, i32> {
        refuse_if(self.depth == DEPTH_MOST, H_NEST)?;
        self.interrupted = self.running();
        self.depth += 1;
        Ok(DONE)
    }

    fn leave(&mut self) -> Result<Said, i32> {
        refuse_if(self.depth == 0, E_CTX)?;
        self.depth -= 1;
        if self.depth == 0 {
            self.interrupted = None;
        }
        Ok(DONE)
    }

    /// Outside handlers: entry, tick, return.
    fn tick(&mut self) -> Result<Said, i32> {
        if self.depth > 0 {
            return Ok(self.pass_time());
        }
        self.enter()?;
        self.pass_time();
        self.leave()
    }

    fn pass_time(&mut self) -> Said {
        self.clock = (self.clock + 1) % CLOCK_END;
        for id in 1..=self.counts().tasks {
            self.lose_one(id);
        }
        self.count_on();
        DONE
    }

    fn lose_one(&mut self, id: u32) {
        match self.task(id).standing {
            Standing::Wait(Wait::Timed(1)) | Standing::WaitSuspend(Wait::Timed(1)) => {
                self.release(id, E_TMOUT, 0)
            }
            Standing::Wait(Wait::Timed(left)) => {
                self.stand(id, Standing::Wait(Wait::Timed(left - 1)))
            }
            Standing::WaitSuspend(Wait::Timed(left)) => {
                self.stand(id, Standing::WaitSuspend(Wait::Timed(left - 1)))
            }
            _ => {}
        }
    }

    /// A call that was judged. A task-only call comes from the running task.
    fn perform(&mut self, number: i32, a: u32, b: u32, c: u32) -> Said {
        let running = self.running();
        let me = running.unwrap_or(0);
        match number {
            1 => self.sta_tsk(a),
            2 => self.end(me),
            3 => self.end(a),
            4 => self.chg_pri(a, b),
            5 => self.rot_rdq(a),
            6 => self.served(a, E_RLWAI, 0),
            7 => self.sus_tsk(a),
            8 => self.rsm_tsk(a),
            9 => self.sleep(me, Wait::Asleep),
            10 if a as i32 == -1 => self.sleep(me, Wait::Asleep),
            10 => self.sleep(me, Wait::Timed(a)),
            11 => self.wup_tsk(a),
            12 => self.can_wup(a),
            13 => self.sig_sem(a),
            14 | 15 => self.take(me, a),
            16 => self.set_flg(a, b),
            17 => self.clr_flg(a, b),
            18 | 19 => self.take_pattern(me, a, b, c),
            20 => self.snd_msg(a, b),
            21 | 22 => self.take_message(me, a),
            23 | 24 => self.take_block(me, a),
            25 => self.rel_blk(a, b),
            26 => (0, me, 0),
            27 => self.tsk_sts(a, running),
            28 => (
                0,
                self.first_or_0(Object::Semaphore(a)),
                self.semaphores[at(a)],
            ),
            29 => (0, self.first_or_0(Object::Flag(a)), self.flags[at(a)]),
            30 => self.mbx_sts(a),
            31 => self.mpl_sts(a),
            32 => (
                0,
                (self.clock >> 32) as u32,
                (self.clock & 0xffff_ffff) as u32,
            ),
            CRE_TSK => self.cre_tsk(a, b),
            DEL_TSK => self.delete(a),
            EXD_TSK => {
                self.end(me);
                self.delete(me)
            }
            SET_ABS => self.set_alarm(a, 0, b, c),
            SET_REL => self.set_alarm(a, self.present(), b, c),
            CAN_ALM => self.cancel(a),
            ALM_STS => self.alm_sts(a),
            _ => unreachable!("judged"),
        }
    }

    fn first_or_0(&self, object: Object) -> u32 {
        self.first_waiter(object).unwrap_or(0)
    }

    fn served(&mut self, id: u32, code: i32, word: u32) -> Said {
        self.release(id, code, word);
        DONE
    }
}

// ---- tasks

impl Plain {
    fn sta_tsk(&mut self, id: u32) -> Said {
        let task = &mut self.kept(id).task;
        task.priority = task.start;
        task.cell = (0, 0);
        self.make_ready(id);
        DONE
    }

    fn end(&mut self, id: u32) -> Said {
        self.make_dormant(id);
        DONE
    }

    fn cre_tsk(&mut self, id: u32, start: u32) -> Said {
        self.kept(id).task = made(start);
        DONE
    }

    fn delete(&mut self, id: u32) -> Said {
        self.kept(id).task = ABSENT;
        DONE
    }

    fn chg_pri(&mut self, id: u32, priority: u32) -> Said {
        self.kept(id).task.priority = priority;
        if self.task(id).standing == Standing::Ready {
            self.goes_last(id);
        }
        DONE
    }

    /// 0 means the best nonempty queue, whichever task is reported.
    fn rot_rdq(&mut self, priority: u32) -> Said {
        let head = match priority {
            0 => self.best(),
            _ => self.ready(priority).first().copied(),
        };
        if let Some(id) = head {
            self.goes_last(id);
        }
        DONE
    }

    fn sus_tsk(&mut self, id: u32) -> Said {
        let suspended = match self.task(id).standing {
            Standing::Wait(wait) => Standing::WaitSuspend(wait),
            _ => Standing::Suspend,
        };
        self.stand(id, suspended);
        DONE
    }

    fn rsm_tsk(&mut self, id: u32) -> Said {
        match self.task(id).standing {
            Standing::WaitSuspend(wait) => self.stand(id, Standing::Wait(wait)),
            _ => self.make_ready(id),
        }
        DONE
    }

    fn sleep(&mut self, me: u32, wait: Wait) -> Said {
        if self.task(me).wakeups == 0 {
            return self.put_into(me, wait);
        }
        self.kept(me).task.wakeups -= 1;
        DONE
    }

    fn wup_tsk(&mut self, id: u32) -> Said {
        if self.task(id).standing.asleep() {
            return self.served(id, 0, 0);
        }
        self.kept(id).task.wakeups += 1;
        DONE
    }

    fn can_wup(&mut self, id: u32) -> Said {
        let old = self.task(id).wakeups;
        self.kept(id).task.wakeups = 0;
        (0, old, 0)
    }

    fn tsk_sts(&self, id: u32, running: Option<u32>) -> Said {
        let state = match self.task(id).standing {
            Standing::Absent => unreachable!("judged"),
            Standing::Dormant => 0,
            Standing::Ready if running == Some(id) => 2,
            Standing::Ready => 1,
            Standing::Wait(_) => 3,
            Standing::Suspend => 4,
            Standing::WaitSuspend(_) => 5,
        };
        (0, state, self.task(id).priority)
    }
}

// ---- semaphores and flags

impl Plain {
    fn sig_sem(&mut self, id: u32) -> Said {
        match self.first_waiter(Object::Semaphore(id)) {
            Some(first) => self.release(first, 0, 0),
            None => self.semaphores[at(id)] += 1,
        }
        DONE
    }

    fn take(&mut self, me: u32, id: u32) -> Said {
        if self.semaphores[at(id)] == 0 {
            return self.put_into(me, Wait::On(Object::Semaphore(id), 0, 0));
        }
        self.semaphores[at(id)] -= 1;
        DONE
    }

    fn set_flg(&mut self, id: u32, bits: u32) -> Said {
        let queue = self.flag_waiters(id);
        self.flags[at(id)] |= bits;
        for waiter in &queue {
            let pattern = self.flags[at(id)];
            if meets(pattern, waiter.wish, waiter.mode) {
                self.release(waiter.task, 0, pattern);
                self.clear_if_asked(id, waiter.mode);
            }
        }
        let place = self.place_of_clearing(&queue);
        (0, place.unwrap_or(queue.len()) as u32, 0)
    }

    fn clear_if_asked(&mut self, id: u32, mode: u32) {
        if clears(mode) {
            self.flags[at(id)] = 0;
        }
    }

    fn clr_flg(&mut self, id: u32, bits: u32) -> Said {
        self.flags[at(id)] &= bits;
        DONE
    }

    fn take_pattern(&mut self, me: u32, id: u32, wish: u32, mode: u32) -> Said {
        let pattern = self.flags[at(id)];
        if !meets(pattern, wish, mode) {
            return self.put_into(me, Wait::On(Object::Flag(id), wish, mode));
        }
        self.clear_if_asked(id, mode);
        (0, pattern, 0)
    }
}

// ---- mailboxes and pools

impl Plain {
    fn snd_msg(&mut self, mailbox: u32, message: u32) -> Said {
        match self.first_waiter(Object::Mailbox(mailbox)) {
            Some(first) => self.release(first, 0, message),
            None => {
                self.messages[at(message)] = Message {
                    mailbox,
                    arrival: self.number(),
                }
            }
        }
        DONE
    }

    fn take_message(&mut self, me: u32, mailbox: u32) -> Said {
        match self.mail(mailbox).first() {
            Some(first) => {
                self.messages[at(*first)].mailbox = 0;
                (0, *first, 0)
            }
            None => self.put_into(me, Wait::On(Object::Mailbox(mailbox), 0, 0)),
        }
    }

    fn take_block(&mut self, me: u32, pool: u32) -> Said {
        match self.free_blocks(pool).first() {
            Some(first) => {
                self.pools[at(pool)][at(*first)].free = false;
                (0, *first, 0)
            }
            None => self.put_into(me, Wait::On(Object::Pool(pool), 0, 0)),
        }
    }

    fn rel_blk(&mut self, pool: u32, block: u32) -> Said {
        match self.first_waiter(Object::Pool(pool)) {
            Some(first) => self.release(first, 0, block),
            None => self.free(pool, block),
        }
        DONE
    }

    fn mbx_sts(&self, mailbox: u32) -> Said {
        let first = self.mail(mailbox).first().copied().unwrap_or(0);
        (0, self.first_or_0(Object::Mailbox(mailbox)), first)
    }

    fn mpl_sts(&self, pool: u32) -> Said {
        let free = self.free_blocks(pool).len() as u32;
        (0, self.first_or_0(Object::Pool(pool)), free)
    }
}

// ---- the counter and its alarms

impl Plain {
    /// The counter, if the setup has one.
    pub fn counter(&self) -> Option<&Counter> {
        self.counter.as_ref()
    }

    fn judged(&mut self) -> &mut Counter {
        self.counter.as_mut().expect("judged")
    }

    fn present(&self) -> u32 {
        self.counter.as_ref().map_or(0, |counter| counter.present)
    }

    fn in_use(&self, alarm: u32) -> bool {
        let found = self.counter.as_ref().map(|all| all.alarms[at(alarm)]);
        found.is_some_and(|alarm| alarm.due.is_some())
    }

    /// So many counts from another one on, by remainder.
    fn set_alarm(&mut self, alarm: u32, from: u32, count: u32, period: u32) -> Said {
        let counter = self.judged();
        let expiry = (from + count) % counter.size;
        counter.alarms[at(alarm)].due = Some(Due { expiry, period });
        DONE
    }

    fn cancel(&mut self, alarm: u32) -> Said {
        self.judged().alarms[at(alarm)].due = None;
        DONE
    }

    fn alm_sts(&mut self, alarm: u32) -> Said {
        let used = self.in_use(alarm);
        let kept = self.judged().alarms[at(alarm)].kept;
        (0, u32::from(used), kept.unsigned_abs())
    }

    /// The counter's step in a tick, and then the alarms that it reaches, by number.
    fn count_on(&mut self) {
        let Some(counter) = &mut self.counter else {
            return;
        };
        counter.present = (counter.present + 1) % counter.size;
        let present = counter.present;
        for alarm in 1..=ALARMS as u32 {
            match self.judged().alarms[at(alarm)].due {
                Some(Due { expiry, period }) if expiry == present => self.fire(alarm, period),
                _ => {}
            }
        }
    }

    /// Starts or wakes the task as a handler would; then idle, or set again by the period.
    fn fire(&mut self, alarm: u32, period: u32) {
        let Alarm { task, wakes, .. } = self.judged().alarms[at(alarm)];
        let call = if wakes { WUP_TSK } else { STA_TSK };
        let code = match self.judge(HANDLER, call, task as i32, 0, 0) {
            Ok(()) => self.perform(call, task, 0, 0).0,
            Err(code) => code,
        };
        self.judged().alarms[at(alarm)].kept = code;
        self.cancel(alarm);
        if period != 0 {
            self.set_alarm(alarm, self.present(), period, period);
        }
    }
}
