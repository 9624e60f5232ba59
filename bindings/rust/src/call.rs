//! The calls by number. Those marked T are for tasks only; the words that each takes stand behind it.

/// Task.
pub const STA_TSK: i32 = 1;
/// T.
pub const EXT_TSK: i32 = 2;
/// T, task.
pub const TER_TSK: i32 = 3;
/// Task, priority.
pub const CHG_PRI: i32 = 4;
/// Priority, 0 for the best that has a ready task.
pub const ROT_RDQ: i32 = 5;
/// Task.
pub const REL_WAI: i32 = 6;
/// Task.
pub const SUS_TSK: i32 = 7;
/// Task.
pub const RSM_TSK: i32 = 8;
/// T.
pub const SLP_TSK: i32 = 9;
/// T, ticks, or [`crate::FOR_EVER`].
pub const WAI_TSK: i32 = 10;
/// Task.
pub const WUP_TSK: i32 = 11;
/// Task; w1 the old count.
pub const CAN_WUP: i32 = 12;
/// Semaphore.
pub const SIG_SEM: i32 = 13;
/// T, semaphore.
pub const WAI_SEM: i32 = 14;
/// Semaphore.
pub const PREQ_SEM: i32 = 15;
/// Flag, pattern; w1 how many waiters were looked at: to the first released with clearing, else all.
pub const SET_FLG: i32 = 16;
/// Flag, pattern.
pub const CLR_FLG: i32 = 17;
/// T, flag, pattern, mode; w1 the pattern before clearing.
pub const WAI_FLG: i32 = 18;
/// Flag, pattern, mode; w1 the pattern before clearing.
pub const POL_FLG: i32 = 19;
/// Mailbox, message.
pub const SND_MSG: i32 = 20;
/// T, mailbox; w1 the message.
pub const RCV_MSG: i32 = 21;
/// Mailbox; w1 the message.
pub const PRCV_MSG: i32 = 22;
/// T, pool; w1 the block, the one that is free the longest.
pub const GET_BLK: i32 = 23;
/// Pool; w1 the block, the same.
pub const PGET_BLK: i32 = 24;
/// Pool, block.
pub const REL_BLK: i32 = 25;
/// w1 the running task.
pub const GET_TID: i32 = 26;
/// Task; w1 its state ([`crate::task_state`]), w2 its priority.
pub const TSK_STS: i32 = 27;
/// Semaphore; w1 the first waiter or 0, w2 the count.
pub const SEM_STS: i32 = 28;
/// Flag; w1 the first waiter or 0, w2 the pattern.
pub const FLG_STS: i32 = 29;
/// Mailbox; w1 the first waiter or 0, w2 the first message or 0.
pub const MBX_STS: i32 = 30;
/// Pool; w1 the first waiter or 0, w2 the number of free blocks.
pub const MPL_STS: i32 = 31;
/// The clock: w1 its quotient by 2^32, w2 the remainder.
pub const GET_TIM: i32 = 32;
/// T, task that is not there, starting priority: it is dormant then.
pub const CRE_TSK: i32 = 33;
/// T, dormant task: it is not there then.
pub const DEL_TSK: i32 = 34;
/// T: ext_tsk, and then the task is not there.
pub const EXD_TSK: i32 = 35;
/// Idle alarm, count at which it fires, 0 for once or the period: both up to the counter's size m.
pub const SET_ABS: i32 = 36;
/// Idle alarm, ticks until it fires, 0 for once or the period: both up to m; 0 ticks are m.
pub const SET_REL: i32 = 37;
/// Alarm in use: it is idle then.
pub const CAN_ALM: i32 = 38;
/// Alarm; w1 1 if it is in use, else 0, w2 the code of its last firing without the sign, 0 before any.
pub const ALM_STS: i32 = 39;
