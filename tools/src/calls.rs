//! The calls by name, and how their words are written.
use std::fmt;

use okrozumba::{call, Code, TaskState};

/// A word that a call takes.
#[derive(Clone, Copy, PartialEq, Eq, Debug)]
pub enum Word {
    /// A number with its name.
    Number(&'static str),
    /// A flag's pattern, in hexadecimal.
    Pattern,
    /// How a flag is waited for.
    Mode,
    /// Ticks, or for ever.
    Ticks,
    /// An alarm's period, or once.
    Period,
}

/// A call: what it takes, and what the words of its answer are.
#[derive(Debug)]
pub struct Call {
    pub number: i32,
    pub name: &'static str,
    pub takes: &'static [Word],
    pub gives: Gives,
}

/// Its number, its name, and its words with the names that values have.
impl fmt::Display for Call {
    fn fmt(&self, out: &mut fmt::Formatter) -> fmt::Result {
        write!(out, "{:>2}  {:<8}", self.number, self.name)?;
        for word in self.takes {
            write!(out, "  {}", word.name())?;
            let names: Vec<&str> = word.named().iter().map(|(name, _)| *name).collect();
            if !names.is_empty() {
                write!(out, " ({})", names.join(", "))?;
            }
        }
        Ok(())
    }
}

/// What the words of an answer with code 0 are.
#[derive(Clone, Copy, PartialEq, Eq, Debug)]
pub enum Gives {
    Nothing,
    /// A number with its name in w1.
    One(&'static str),
    /// A flag's pattern in w1.
    Pattern,
    /// A task's state and priority.
    State,
    /// The first waiter, and a number with its name.
    Waiter(&'static str),
    /// The first waiter, and a flag's pattern.
    WaiterPattern,
    /// The clock in two words.
    Clock,
    /// Whether an alarm is in use, and the code of its last firing without the sign.
    Alarm,
}

impl Gives {
    /// The words of an answer as they are written; none if there is nothing to say.
    pub fn written(self, w1: u32, w2: u32) -> String {
        match self {
            Gives::Nothing => String::new(),
            Gives::One(name) => format!("{name} {w1}"),
            Gives::Pattern => format!("pattern {w1:#x}"),
            Gives::State => format!("{}, priority {w2}", state(w1)),
            Gives::Waiter(name) => format!("{}, {name} {w2}", waiter(w1)),
            Gives::WaiterPattern => format!("{}, pattern {w2:#x}", waiter(w1)),
            Gives::Clock => format!("clock {}", (u64::from(w1) << 32) | u64::from(w2)),
            Gives::Alarm => {
                let use_ = if w1 == 1 { "in use" } else { "idle" };
                format!("{use_}, kept code {}", Code::of(-(w2 as i32)))
            }
        }
    }
}

fn state(number: u32) -> String {
    TaskState::of(number).map_or(number.to_string(), |state| state.to_string())
}

fn waiter(task: u32) -> String {
    match task {
        0 => "no waiter".to_string(),
        task => format!("waiter {task}"),
    }
}

impl Word {
    /// What a reader calls it.
    pub fn name(self) -> &'static str {
        match self {
            Word::Number(name) => name,
            Word::Pattern => "pattern",
            Word::Mode => "mode",
            Word::Ticks => "ticks",
            Word::Period => "period",
        }
    }

    /// The values that have a name.
    pub fn named(self) -> &'static [(&'static str, i32)] {
        match self {
            Word::Number(_) | Word::Pattern => &[],
            Word::Mode => &[("all", 0), ("any", 1), ("all+clear", 2), ("any+clear", 3)],
            Word::Ticks => &[("forever", okrozumba::FOR_EVER)],
            Word::Period => &[("once", 0)],
        }
    }

    /// A value as it is written.
    pub fn written(self, value: i32) -> String {
        let named = self.named().iter().find(|(_, of)| *of == value);
        match named {
            Some((name, _)) => name.to_string(),
            None if self == Word::Pattern => format!("{value:#x}"),
            None => value.to_string(),
        }
    }
}

const TASK: Word = Word::Number("task");
const PRIORITY: Word = Word::Number("priority");
const SEMAPHORE: Word = Word::Number("semaphore");
const FLAG: Word = Word::Number("flag");
const MAILBOX: Word = Word::Number("mailbox");
const MESSAGE: Word = Word::Number("message");
const POOL: Word = Word::Number("pool");
const BLOCK: Word = Word::Number("block");
const ALARM: Word = Word::Number("alarm");
const COUNT: Word = Word::Number("count");

const fn of(number: i32, name: &'static str, takes: &'static [Word], gives: Gives) -> Call {
    Call {
        number,
        name,
        takes,
        gives,
    }
}

/// All of them, by number.
pub const CALLS: [Call; 39] = [
    of(call::STA_TSK, "sta_tsk", &[TASK], Gives::Nothing),
    of(call::EXT_TSK, "ext_tsk", &[], Gives::Nothing),
    of(call::TER_TSK, "ter_tsk", &[TASK], Gives::Nothing),
    of(call::CHG_PRI, "chg_pri", &[TASK, PRIORITY], Gives::Nothing),
    of(call::ROT_RDQ, "rot_rdq", &[PRIORITY], Gives::Nothing),
    of(call::REL_WAI, "rel_wai", &[TASK], Gives::Nothing),
    of(call::SUS_TSK, "sus_tsk", &[TASK], Gives::Nothing),
    of(call::RSM_TSK, "rsm_tsk", &[TASK], Gives::Nothing),
    of(call::SLP_TSK, "slp_tsk", &[], Gives::Nothing),
    of(call::WAI_TSK, "wai_tsk", &[Word::Ticks], Gives::Nothing),
    of(call::WUP_TSK, "wup_tsk", &[TASK], Gives::Nothing),
    of(call::CAN_WUP, "can_wup", &[TASK], Gives::One("wake-ups")),
    of(call::SIG_SEM, "sig_sem", &[SEMAPHORE], Gives::Nothing),
    of(call::WAI_SEM, "wai_sem", &[SEMAPHORE], Gives::Nothing),
    of(call::PREQ_SEM, "preq_sem", &[SEMAPHORE], Gives::Nothing),
    of(
        call::SET_FLG,
        "set_flg",
        &[FLAG, Word::Pattern],
        Gives::One("looked at"),
    ),
    of(
        call::CLR_FLG,
        "clr_flg",
        &[FLAG, Word::Pattern],
        Gives::Nothing,
    ),
    of(
        call::WAI_FLG,
        "wai_flg",
        &[FLAG, Word::Pattern, Word::Mode],
        Gives::Pattern,
    ),
    of(
        call::POL_FLG,
        "pol_flg",
        &[FLAG, Word::Pattern, Word::Mode],
        Gives::Pattern,
    ),
    of(
        call::SND_MSG,
        "snd_msg",
        &[MAILBOX, MESSAGE],
        Gives::Nothing,
    ),
    of(call::RCV_MSG, "rcv_msg", &[MAILBOX], Gives::One("message")),
    of(
        call::PRCV_MSG,
        "prcv_msg",
        &[MAILBOX],
        Gives::One("message"),
    ),
    of(call::GET_BLK, "get_blk", &[POOL], Gives::One("block")),
    of(call::PGET_BLK, "pget_blk", &[POOL], Gives::One("block")),
    of(call::REL_BLK, "rel_blk", &[POOL, BLOCK], Gives::Nothing),
    of(call::GET_TID, "get_tid", &[], Gives::One("task")),
    of(call::TSK_STS, "tsk_sts", &[TASK], Gives::State),
    of(
        call::SEM_STS,
        "sem_sts",
        &[SEMAPHORE],
        Gives::Waiter("count"),
    ),
    of(call::FLG_STS, "flg_sts", &[FLAG], Gives::WaiterPattern),
    of(
        call::MBX_STS,
        "mbx_sts",
        &[MAILBOX],
        Gives::Waiter("message"),
    ),
    of(
        call::MPL_STS,
        "mpl_sts",
        &[POOL],
        Gives::Waiter("free blocks"),
    ),
    of(call::GET_TIM, "get_tim", &[], Gives::Clock),
    of(call::CRE_TSK, "cre_tsk", &[TASK, PRIORITY], Gives::Nothing),
    of(call::DEL_TSK, "del_tsk", &[TASK], Gives::Nothing),
    of(call::EXD_TSK, "exd_tsk", &[], Gives::Nothing),
    of(
        call::SET_ABS,
        "set_abs",
        &[ALARM, COUNT, Word::Period],
        Gives::Nothing,
    ),
    of(
        call::SET_REL,
        "set_rel",
        &[ALARM, Word::Number("ticks"), Word::Period],
        Gives::Nothing,
    ),
    of(call::CAN_ALM, "can_alm", &[ALARM], Gives::Nothing),
    of(call::ALM_STS, "alm_sts", &[ALARM], Gives::Alarm),
];

pub fn by_number(number: i32) -> Option<&'static Call> {
    CALLS.iter().find(|call| call.number == number)
}

pub fn by_name(name: &str) -> Option<&'static Call> {
    CALLS.iter().find(|call| call.name == name)
}

#[cfg(test)]
mod tests {
    use super::*;

    #[test]
    fn each_number_stands_at_its_place() {
        for (place, call) in CALLS.iter().enumerate() {
            assert_eq!(call.number as usize, place + 1);
            assert_eq!(
                by_name(call.name).map(|found| found.number),
                Some(call.number)
            );
        }
    }

    #[test]
    fn a_call_in_a_line() {
        let line = |name| by_name(name).map(Call::to_string);
        assert_eq!(
            line("wai_tsk").as_deref(),
            Some("10  wai_tsk   ticks (forever)")
        );
        assert_eq!(
            line("chg_pri").as_deref(),
            Some(" 4  chg_pri   task  priority")
        );
    }

    #[test]
    fn words_with_names() {
        assert_eq!(Word::Mode.written(3), "any+clear");
        assert_eq!(Word::Mode.written(4), "4");
        assert_eq!(Word::Ticks.written(-1), "forever");
        assert_eq!(Word::Pattern.written(-1), "0xffffffff");
    }
}
