//! The codes of answers and cells, as numbers and by name ([`Code`]). An event with a negative code changed nothing. On a damaged state every
//! event and every cell gets one of [`H_NUMBER`], [`H_QUEUE`], [`H_SERVED`], [`H_TWICE`] and [`H_FREE`], the first that applies.
use core::fmt;

/// A code by its name, as the header has it: `Code::E_RLWAI`. It prints its name; a number that is no code of the kernel's prints itself.
///
/// ```
/// use okrozumba::Code;
///
/// assert_eq!(Code::of(-3414), Code::E_RLWAI);
/// assert_eq!(Code::E_RLWAI.to_string(), "E_RLWAI");
/// assert!(Code::H_QUEUE.is_refusal() && Code::H_QUEUE.is_damage());
/// assert_eq!(Code::of(-9).to_string(), "-9");
/// assert!(Code::ALL.iter().map(|code| code.number()).eq(okrozumba::figures::CODES));
/// ```
#[derive(Clone, Copy, PartialEq, Eq, PartialOrd, Ord, Hash)]
pub struct Code(i32);

/// Each code once: the number, the named code, and the name.
macro_rules! codes {
    ($($(#[$doc:meta])* $name:ident = $number:literal;)*) => {
        $($(#[$doc])* pub const $name: i32 = $number;)*

        impl Code {
            $($(#[$doc])* pub const $name: Code = Code($number);)*

            /// Every code.
            pub const ALL: &'static [Code] = &[$(Code::$name),*];

            /// Its name, if it is a code of the kernel's.
            pub const fn name(self) -> Option<&'static str> {
                match self.0 {
                    $($number => Some(stringify!($name)),)*
                    _ => None,
                }
            }
        }
    };
}

codes! {
    /// Done.
    E_OK = 0;
    /// The caller waits: its answer will be in its cell.
    WAITS = 1;
    /// Call number not 1..39, or context not 0 or 1.
    H_CALL = -1;
    /// Flag pattern 0 in a wait or poll, mode not 0..3, message number outside 1..count; alarm not 1..8, its count or period not 0..m, no
    /// counter.
    H_PAR = -2;
    /// sta_tsk or del_tsk on a task not dormant.
    H_NODMT = -3;
    /// sus_tsk on a suspended task.
    H_SUS = -4;
    /// A poll that can't be served at once.
    H_POLL = -5;
    /// The message already lies in a mailbox.
    H_MSG = -6;
    /// An entry while 15 handlers are open.
    H_NEST = -7;
    /// cre_tsk on a task that is there.
    H_EXIST = -8;
    /// Block number outside the pool, or free.
    H_ILBLK = -10;
    /// set_abs or set_rel on an alarm in use.
    H_USED = -11;
    /// can_alm on an idle alarm.
    H_IDLE = -12;
    /// Damage: a number out of range anywhere, or any breach but those of the next four; w1 is 0.
    H_NUMBER = -20;
    /// Damage: a task missing from, doubled in or foreign to a queue; w1 is the smallest such task.
    H_QUEUE = -21;
    /// Damage: a waiter on an object, first in line or not, beside what would serve it; w1 is the smallest such waiter.
    H_SERVED = -22;
    /// Damage: a message held twice; w1 is the smallest such message.
    H_TWICE = -23;
    /// Damage: a free block missing from, doubled in or foreign to its pool's queue; w1 is the smallest such pool.
    H_FREE = -24;
    /// Priority outside 1..P (rot_rdq: 0..P).
    E_TPRI = -1830;
    /// wai_tsk time below -1.
    E_ILTIME = -1831;
    /// ter_tsk, sus_tsk or wup_tsk on oneself, task context.
    E_SELF = -2097;
    /// Id outside 1..count, or a task that is not there.
    E_NOEXS = -2100;
    /// ter_tsk, chg_pri, sus_tsk, wup_tsk or can_wup on a dormant task.
    E_DMT = -2101;
    /// rsm_tsk on a task not suspended.
    E_NOSUS = -2104;
    /// rel_wai on a task not waiting.
    E_NOWAI = -2110;
    /// Task-only call from a handler; task context while nothing runs or a handler is open; handler context or a return while none is.
    E_CTX = -2629;
    /// Wake-up count already 15; semaphore already 65535.
    E_QOVR = -2889;
    /// wai_tsk with time 0 and no wake-up stored; in a cell, time ran out.
    E_TMOUT = -3413;
    /// Only in a cell: wait broken off.
    E_RLWAI = -3414;
}

impl Code {
    /// The code of a number.
    pub const fn of(number: i32) -> Code {
        Code(number)
    }

    /// Its number.
    pub const fn number(self) -> i32 {
        self.0
    }

    /// Whether it is negative: the event was refused, and nothing changed.
    pub const fn is_refusal(self) -> bool {
        self.0 < 0
    }

    /// Whether it tells of a damaged state.
    pub const fn is_damage(self) -> bool {
        H_FREE <= self.0 && self.0 <= H_NUMBER
    }
}

impl fmt::Display for Code {
    fn fmt(&self, f: &mut fmt::Formatter<'_>) -> fmt::Result {
        match self.name() {
            Some(name) => f.pad(name),
            None => fmt::Display::fmt(&self.0, f),
        }
    }
}

impl fmt::Debug for Code {
    fn fmt(&self, f: &mut fmt::Formatter<'_>) -> fmt::Result {
        fmt::Display::fmt(self, f)
    }
}
