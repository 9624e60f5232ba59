//! The 39 calls by the manual's names. From a handler those for tasks only are refused with E_CTX.
use crate::{call, context, Answer, State};

/// Who makes a call.
#[derive(Clone, Copy, PartialEq, Eq, Hash, Debug)]
pub enum Context {
    /// The running task.
    Task,
    /// An interrupt handler; one must be open.
    Handler,
}

impl Context {
    /// The number that [`State::call`] takes ([`context`]).
    pub const fn number(self) -> i32 {
        match self {
            Context::Task => context::TASK,
            Context::Handler => context::HANDLER,
        }
    }
}

/// The calls. Each is [`State::call`] by its number.
impl State {
    // ---- tasks

    /// A dormant task is made ready at its starting priority.
    pub fn sta_tsk(&mut self, context: Context, task: i32) -> Answer {
        self.call(context.number(), call::STA_TSK, task, 0, 0)
    }

    /// The caller ends: it goes dormant. Tasks only.
    pub fn ext_tsk(&mut self, context: Context) -> Answer {
        self.call(context.number(), call::EXT_TSK, 0, 0, 0)
    }

    /// Another task ends: it leaves every queue and goes dormant. Tasks only.
    pub fn ter_tsk(&mut self, context: Context, task: i32) -> Answer {
        self.call(context.number(), call::TER_TSK, task, 0, 0)
    }

    /// A new priority; a ready or running task goes last in its queue.
    pub fn chg_pri(&mut self, context: Context, task: i32, priority: i32) -> Answer {
        self.call(context.number(), call::CHG_PRI, task, priority, 0)
    }

    /// The head of a ready queue goes last; priority 0 is the best that has a ready task.
    pub fn rot_rdq(&mut self, context: Context, priority: i32) -> Answer {
        self.call(context.number(), call::ROT_RDQ, priority, 0, 0)
    }

    /// A wait is broken off: the task is released, its cell has E_RLWAI.
    pub fn rel_wai(&mut self, context: Context, task: i32) -> Answer {
        self.call(context.number(), call::REL_WAI, task, 0, 0)
    }

    /// A task is suspended; a waiting one keeps its place.
    pub fn sus_tsk(&mut self, context: Context, task: i32) -> Answer {
        self.call(context.number(), call::SUS_TSK, task, 0, 0)
    }

    /// A suspended task goes on: it is ready, or waits as before.
    pub fn rsm_tsk(&mut self, context: Context, task: i32) -> Answer {
        self.call(context.number(), call::RSM_TSK, task, 0, 0)
    }

    // ---- sleep and wake-ups

    /// The caller takes a stored wake-up, else it sleeps. Tasks only.
    pub fn slp_tsk(&mut self, context: Context) -> Answer {
        self.call(context.number(), call::SLP_TSK, 0, 0, 0)
    }

    /// The same, but it sleeps up to so many ticks, for ever with [`FOR_EVER`](crate::FOR_EVER); 0 ticks are E_TMOUT. Tasks only.
    pub fn wai_tsk(&mut self, context: Context, ticks: i32) -> Answer {
        self.call(context.number(), call::WAI_TSK, ticks, 0, 0)
    }

    /// A sleeper is released; any other task stores a wake-up.
    pub fn wup_tsk(&mut self, context: Context, task: i32) -> Answer {
        self.call(context.number(), call::WUP_TSK, task, 0, 0)
    }

    /// Stored wake-ups are dropped; w1 is how many there were.
    pub fn can_wup(&mut self, context: Context, task: i32) -> Answer {
        self.call(context.number(), call::CAN_WUP, task, 0, 0)
    }

    // ---- semaphores

    /// The first waiter is released, else the count rises.
    pub fn sig_sem(&mut self, context: Context, semaphore: i32) -> Answer {
        self.call(context.number(), call::SIG_SEM, semaphore, 0, 0)
    }

    /// The caller takes one of the count, else it waits. Tasks only.
    pub fn wai_sem(&mut self, context: Context, semaphore: i32) -> Answer {
        self.call(context.number(), call::WAI_SEM, semaphore, 0, 0)
    }

    /// The same, but H_POLL instead of a wait.
    pub fn preq_sem(&mut self, context: Context, semaphore: i32) -> Answer {
        self.call(context.number(), call::PREQ_SEM, semaphore, 0, 0)
    }

    // ---- event flags

    /// Bits are set, and waiters whose condition holds are released; w1 is how many were looked at.
    pub fn set_flg(&mut self, context: Context, flag: i32, pattern: u32) -> Answer {
        self.call(context.number(), call::SET_FLG, flag, pattern as i32, 0)
    }

    /// Only bits of the pattern stay.
    pub fn clr_flg(&mut self, context: Context, flag: i32, pattern: u32) -> Answer {
        self.call(context.number(), call::CLR_FLG, flag, pattern as i32, 0)
    }

    /// Unless all bits of the pattern are set the caller waits for them; the mode adds up those of [`mode`](crate::mode). w1 is the pattern
    /// before clearing. Tasks only.
    pub fn wai_flg(&mut self, context: Context, flag: i32, pattern: u32, mode: i32) -> Answer {
        self.call(context.number(), call::WAI_FLG, flag, pattern as i32, mode)
    }

    /// The same, but H_POLL instead of a wait.
    pub fn pol_flg(&mut self, context: Context, flag: i32, pattern: u32, mode: i32) -> Answer {
        self.call(context.number(), call::POL_FLG, flag, pattern as i32, mode)
    }

    // ---- mailboxes

    /// A message goes to the first waiter, else last into the mailbox.
    pub fn snd_msg(&mut self, context: Context, mailbox: i32, message: i32) -> Answer {
        self.call(context.number(), call::SND_MSG, mailbox, message, 0)
    }

    /// The caller gets the first message in w1, else it waits. Tasks only.
    pub fn rcv_msg(&mut self, context: Context, mailbox: i32) -> Answer {
        self.call(context.number(), call::RCV_MSG, mailbox, 0, 0)
    }

    /// The same, but H_POLL instead of a wait.
    pub fn prcv_msg(&mut self, context: Context, mailbox: i32) -> Answer {
        self.call(context.number(), call::PRCV_MSG, mailbox, 0, 0)
    }

    // ---- memory pools

    /// The caller gets the block that is free the longest in w1, else it waits. Tasks only.
    pub fn get_blk(&mut self, context: Context, pool: i32) -> Answer {
        self.call(context.number(), call::GET_BLK, pool, 0, 0)
    }

    /// The same, but H_POLL instead of a wait.
    pub fn pget_blk(&mut self, context: Context, pool: i32) -> Answer {
        self.call(context.number(), call::PGET_BLK, pool, 0, 0)
    }

    /// A block is returned: to the first waiter, else it is free.
    pub fn rel_blk(&mut self, context: Context, pool: i32, block: i32) -> Answer {
        self.call(context.number(), call::REL_BLK, pool, block, 0)
    }

    // ---- what only looks

    /// w1 is the running task.
    pub fn get_tid(&mut self, context: Context) -> Answer {
        self.call(context.number(), call::GET_TID, 0, 0, 0)
    }

    /// w1 is the state ([`TaskState::of`](crate::TaskState::of)), w2 the priority.
    pub fn tsk_sts(&mut self, context: Context, task: i32) -> Answer {
        self.call(context.number(), call::TSK_STS, task, 0, 0)
    }

    /// w1 is the first waiter or 0, w2 the count.
    pub fn sem_sts(&mut self, context: Context, semaphore: i32) -> Answer {
        self.call(context.number(), call::SEM_STS, semaphore, 0, 0)
    }

    /// w1 is the first waiter or 0, w2 the pattern.
    pub fn flg_sts(&mut self, context: Context, flag: i32) -> Answer {
        self.call(context.number(), call::FLG_STS, flag, 0, 0)
    }

    /// w1 is the first waiter or 0, w2 the first message or 0.
    pub fn mbx_sts(&mut self, context: Context, mailbox: i32) -> Answer {
        self.call(context.number(), call::MBX_STS, mailbox, 0, 0)
    }

    /// w1 is the first waiter or 0, w2 the number of free blocks.
    pub fn mpl_sts(&mut self, context: Context, pool: i32) -> Answer {
        self.call(context.number(), call::MPL_STS, pool, 0, 0)
    }

    /// The clock: w1 is its quotient by 2^32, w2 the remainder.
    pub fn get_tim(&mut self, context: Context) -> Answer {
        self.call(context.number(), call::GET_TIM, 0, 0, 0)
    }

    // ---- tasks that come and go

    /// A task that is not there is made, dormant, with a starting priority. Tasks only.
    pub fn cre_tsk(&mut self, context: Context, task: i32, priority: i32) -> Answer {
        self.call(context.number(), call::CRE_TSK, task, priority, 0)
    }

    /// A dormant task is deleted. Tasks only.
    pub fn del_tsk(&mut self, context: Context, task: i32) -> Answer {
        self.call(context.number(), call::DEL_TSK, task, 0, 0)
    }

    /// The caller ends and is deleted. Tasks only.
    pub fn exd_tsk(&mut self, context: Context) -> Answer {
        self.call(context.number(), call::EXD_TSK, 0, 0, 0)
    }

    // ---- alarms

    /// An idle alarm is to fire when the counter comes to a count, once (period 0) or every so many ticks.
    pub fn set_abs(&mut self, context: Context, alarm: i32, count: i32, period: i32) -> Answer {
        self.call(context.number(), call::SET_ABS, alarm, count, period)
    }

    /// The same after so many ticks; 0 ticks are the counter's size.
    pub fn set_rel(&mut self, context: Context, alarm: i32, ticks: i32, period: i32) -> Answer {
        self.call(context.number(), call::SET_REL, alarm, ticks, period)
    }

    /// An alarm in use goes idle.
    pub fn can_alm(&mut self, context: Context, alarm: i32) -> Answer {
        self.call(context.number(), call::CAN_ALM, alarm, 0, 0)
    }

    /// w1 is 1 if the alarm is in use, else 0; w2 the code of its last firing without the sign, 0 before any.
    pub fn alm_sts(&mut self, context: Context, alarm: i32) -> Answer {
        self.call(context.number(), call::ALM_STS, alarm, 0, 0)
    }
}
