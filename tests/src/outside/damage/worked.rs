//! Damage worked by hand from the documented layout: which words are overwritten, and what requests K6, K7, K9 and K11 tell of them.
use super::{with_word, Tally};
use crate::pair::Pair;
use okrozumba::{State, STATE_WORDS};
use second::layout;
use second::picture::{H_FREE, H_NUMBER, H_QUEUE, H_SERVED, H_TWICE};
use second::plain::Event;
use second::setup;

/// Calls of the running task on a fresh state (number, a, b, c).
type Calls = &'static [[i32; 4]];
type Words = &'static [(usize, u32)];
/// What is done to it, the calls before, the words overwritten, and code and id told.
type Worked = (&'static str, Calls, Words, (i32, u32));

// ---- places of words

const fn next(node: usize) -> usize {
    363 + node
}

const fn prev(node: usize) -> usize {
    468 + node
}

const fn mail_next(node: usize) -> usize {
    625 + node
}

const fn block_next(node: usize) -> usize {
    1183 + node
}

const fn block_prev(node: usize) -> usize {
    1448 + node
}

const fn mark(message: usize) -> usize {
    STATE_WORDS + message - 1
}

/// Of task 3: its state, and what else a task has.
const STATE_OF_3: usize = 3;
const PRIORITY_OF_3: usize = 36;
const START_OF_3: usize = 69;
const WAKEUPS_OF_3: usize = 102;
const CODE_OF_3: usize = 135;
const WORD_OF_3: usize = 168;
const WAKEUPS_OF_1: usize = 100;
const COUNT: usize = 574;
const PATTERN: usize = 591;
const FREE: usize = 608;
const CLOCK_HIGH: usize = 1179;
const HANDLERS: usize = 1180;
const INTERRUPTED: usize = 1181;
const NONEMPTY: usize = 1182;
const COUNTER: usize = 1713;
const PRESENT: usize = 1714;
/// The words before alarm 1's.
const ALARM_TASKS: usize = 1715;
const ALARM_WAKES: usize = 1724;
const ALARM_CODES: usize = 1733;
const ALARM_DUES: usize = 1742;
const ALARM_PERIODS: usize = 1751;

/// Anchors: of the ready queues of priorities 1 and 2, of the semaphore's waiters, of the mailboxes' lists, of the pools' free blocks.
const READY_1: u32 = 33;
const READY_2: u32 = 34;
const WAITERS: u32 = 49;
const MAIL_1: u32 = 257;
const MAIL_2: u32 = 258;
const FREE_1: u32 = 257;
const FREE_2: u32 = 258;

// ---- calls

const START_3: [i32; 4] = [1, 3, 0, 0];
const DELETE_3: [i32; 4] = [34, 3, 0, 0];
const WAIT_SEMAPHORE: [i32; 4] = [14, 1, 0, 0];
const SEND_1: [i32; 4] = [20, 1, 1, 0];
const SEND_2: [i32; 4] = [20, 1, 2, 0];
const RECEIVE: [i32; 4] = [21, 1, 0, 0];
const GET_BLOCK: [i32; 4] = [23, 1, 0, 0];
/// Then the ready queue of priority 2 has the tasks 2, 3 and 1.
const ALL_AT_2: [[i32; 4]; 3] = [START_3, [4, 3, 2, 0], [5, 2, 0, 0]];

// ---- memories

/// Four priorities, and one of each object. When fresh the ready queue of priority 2 has the tasks 1 and 2, and 3 is dormant at priority 1;
/// the pool has two blocks.
const SHEET: [u32; 16] = [4, 3, 2, 1, 2, 1, 1, 0, 1, 0, 1, 0, 1, 2, 1, 2];

const ON_SHEET: [Worked; 33] = [
    ("2 leads to 1", &[], &[(next(2), 1)], (H_QUEUE, 1)),
    ("2 leads to itself", &[], &[(next(2), 2)], (H_QUEUE, 2)),
    ("1 is passed over", &[], &[(next(34), 2)], (H_QUEUE, 1)),
    ("2 is passed over", &[], &[(next(1), READY_2)], (H_QUEUE, 2)),
    (
        "3 stands in a queue",
        &[],
        &[(next(33), 3), (next(3), READY_1)],
        (H_QUEUE, 3),
    ),
    ("1 is suspended", &[], &[(1, 4)], (H_QUEUE, 1)),
    ("1 has another priority", &[], &[(34, 3)], (H_QUEUE, 1)),
    (
        "3 is led to and leads nowhere",
        &[],
        &[(next(33), 3)],
        (H_NUMBER, 0),
    ),
    (
        "3 stands nowhere and leads on",
        &[],
        &[(next(3), READY_1)],
        (H_NUMBER, 0),
    ),
    (
        "1 leads to another queue's anchor",
        &[],
        &[(next(1), READY_1)],
        (H_NUMBER, 0),
    ),
    ("1 leads to nobody", &[], &[(next(1), 4)], (H_NUMBER, 0)),
    // 2, 3, 1, 2: one entry more than there are tasks, so that 1 is listed once
    (
        "the last leads to the first",
        &ALL_AT_2,
        &[(next(1), 2)],
        (H_QUEUE, 2),
    ),
    // 2, 3, 3, 3: and 1 is missing
    (
        "3 leads to itself",
        &ALL_AT_2,
        &[(next(3), 3)],
        (H_QUEUE, 1),
    ),
    (
        "a semaphore beside its waiter",
        &[WAIT_SEMAPHORE],
        &[(COUNT, 1)],
        (H_SERVED, 1),
    ),
    (
        "a semaphore beside a suspended waiter",
        &[WAIT_SEMAPHORE, [7, 1, 0, 0]],
        &[(COUNT, 1)],
        (H_SERVED, 1),
    ),
    // 3 waits first
    (
        "a semaphore beside two",
        &[START_3, WAIT_SEMAPHORE, WAIT_SEMAPHORE],
        &[(COUNT, 65535)],
        (H_SERVED, 1),
    ),
    (
        "a pattern beside the second in line alone",
        &[[18, 1, 4, 0], [18, 1, 1, 0]],
        &[(PATTERN, 1)],
        (H_SERVED, 2),
    ),
    (
        "a block beside its waiter",
        &[GET_BLOCK, GET_BLOCK, GET_BLOCK],
        &[(FREE, 2)],
        (H_SERVED, 1),
    ),
    (
        "a message listed beside its waiter, and not marked",
        &[RECEIVE],
        &[(mail_next(257), 1), (mail_next(1), MAIL_1)],
        (H_SERVED, 1),
    ),
    (
        "a message marked beside its waiter, and not listed",
        &[RECEIVE],
        &[(mark(1), 1)],
        (H_NUMBER, 0),
    ),
    (
        "2 leads to 1 in a mailbox",
        &[SEND_1, SEND_2],
        &[(mail_next(2), 1)],
        (H_TWICE, 1),
    ),
    (
        "2 leads to itself in a mailbox",
        &[SEND_1, SEND_2],
        &[(mail_next(2), 2)],
        (H_TWICE, 2),
    ),
    (
        "a mark of no mailbox beside a message held twice",
        &[SEND_1, SEND_2],
        &[(mail_next(2), 2), (mark(1), 2)],
        (H_NUMBER, 0),
    ),
    (
        "a message not marked beside one held twice",
        &[SEND_1, SEND_2],
        &[(mail_next(2), 2), (mark(1), 0)],
        (H_TWICE, 2),
    ),
    (
        "16 wake-ups beside a doubled task",
        &[],
        &[(next(2), 1), (WAKEUPS_OF_1, 16)],
        (H_NUMBER, 0),
    ),
    (
        "the clock past its end beside a message held twice",
        &[SEND_1],
        &[(mail_next(1), 1), (CLOCK_HIGH, 65536)],
        (H_NUMBER, 0),
    ),
    (
        "a dormant task interrupted and a missing one",
        &[],
        &[(HANDLERS, 1), (INTERRUPTED, 3), (next(34), READY_2)],
        (H_NUMBER, 0),
    ),
    // task 2 is missing, task 1 waits
    (
        "a missing task and a waiter",
        &[WAIT_SEMAPHORE],
        &[(next(34), READY_2), (COUNT, 1)],
        (H_QUEUE, 2),
    ),
    // task 1 is missing from the waiters, and so is one
    (
        "a waiter that is missing",
        &[WAIT_SEMAPHORE],
        &[(next(49), WAITERS), (COUNT, 1)],
        (H_QUEUE, 1),
    ),
    (
        "a waiter and a message held twice",
        &[SEND_1, WAIT_SEMAPHORE],
        &[(mail_next(1), 1), (COUNT, 1)],
        (H_SERVED, 1),
    ),
    ("a link back alone", &[], &[(prev(2), 34)], (H_NUMBER, 0)),
    (
        "a link back and a message held twice",
        &[SEND_1],
        &[(prev(2), 34), (mail_next(1), 1)],
        (H_TWICE, 1),
    ),
    (
        "the word of nonempty ready queues and a missing task",
        &[],
        &[(NONEMPTY, 0), (next(34), READY_2)],
        (H_QUEUE, 1),
    ),
];

/// One task, two mailboxes, two messages.
const TWO_MAILBOXES: [u32; 9] = [1, 1, 1, 1, 0, 0, 2, 2, 0];

const ON_TWO_MAILBOXES: [Worked; 3] = [
    // it lists 2, 1 and the first one's anchor
    (
        "the second mailbox leads into the first",
        &[SEND_2, SEND_1],
        &[(mail_next(258), 2)],
        (H_NUMBER, 0),
    ),
    // both list 2, 1, 2
    (
        "neither mailbox ends",
        &[SEND_2, SEND_1],
        &[(mail_next(258), 2), (mail_next(1), 2)],
        (H_TWICE, 1),
    ),
    // 1 lies in the second by its links, in the first by its mark
    (
        "a message in another mailbox",
        &[SEND_1],
        &[
            (mail_next(257), MAIL_1),
            (mail_next(258), 1),
            (mail_next(1), MAIL_2),
        ],
        (H_NUMBER, 0),
    ),
];

/// On the sheet too.
const ON_ITS_POOL: [Worked; 18] = [
    (
        "1 is passed over",
        &[],
        &[(block_next(257), 2)],
        (H_FREE, 1),
    ),
    (
        "2 is passed over",
        &[],
        &[(block_next(1), FREE_1)],
        (H_FREE, 1),
    ),
    ("2 leads to 1", &[], &[(block_next(2), 1)], (H_FREE, 1)),
    // 1 and then 2, up to the 33rd entry
    ("2 leads to itself", &[], &[(block_next(2), 2)], (H_FREE, 1)),
    ("2 is listed and not marked", &[], &[(FREE, 1)], (H_FREE, 1)),
    (
        "1 is out and marked",
        &[GET_BLOCK],
        &[(FREE, 3)],
        (H_FREE, 1),
    ),
    (
        "1 is out and listed",
        &[GET_BLOCK],
        &[(block_next(257), 1), (block_next(1), 2)],
        (H_FREE, 1),
    ),
    // the marks decide what would serve it
    (
        "1 is out and listed beside a waiter",
        &[GET_BLOCK, GET_BLOCK, GET_BLOCK],
        &[(block_next(257), 1), (block_next(1), FREE_1)],
        (H_FREE, 1),
    ),
    ("1 leads nowhere", &[], &[(block_next(1), 0)], (H_NUMBER, 0)),
    (
        "a third block is listed",
        &[],
        &[(block_next(2), 3), (block_next(3), FREE_1)],
        (H_NUMBER, 0),
    ),
    (
        "2 leads to a pool that there is not",
        &[],
        &[(block_next(2), 33)],
        (H_NUMBER, 0),
    ),
    (
        "1 is out and leads on",
        &[GET_BLOCK],
        &[(block_next(1), FREE_1)],
        (H_NUMBER, 0),
    ),
    (
        "a third block leads on",
        &[],
        &[(block_next(3), FREE_1)],
        (H_NUMBER, 0),
    ),
    (
        "a link back alone",
        &[],
        &[(block_prev(2), FREE_1)],
        (H_NUMBER, 0),
    ),
    (
        "a block missing and a message held twice",
        &[SEND_1],
        &[(block_next(257), 2), (mail_next(1), 1)],
        (H_TWICE, 1),
    ),
    (
        "a block missing and a link back",
        &[],
        &[(block_next(257), 2), (prev(2), 34)],
        (H_FREE, 1),
    ),
    (
        "a block missing and a message not marked",
        &[SEND_1],
        &[(block_next(257), 2), (mark(1), 0)],
        (H_FREE, 1),
    ),
    (
        "a block missing and the clock past its end",
        &[],
        &[(block_next(257), 2), (CLOCK_HIGH, 65536)],
        (H_NUMBER, 0),
    ),
];

/// On the sheet too, mostly with task 3 deleted.
const ON_TASK_3: [Worked; 13] = [
    (
        "it is not there and has a priority",
        &[DELETE_3],
        &[(PRIORITY_OF_3, 1)],
        (H_NUMBER, 0),
    ),
    (
        "it is not there and has a starting priority",
        &[DELETE_3],
        &[(START_OF_3, 1)],
        (H_NUMBER, 0),
    ),
    (
        "it is not there and has both",
        &[DELETE_3],
        &[(START_OF_3, 1), (PRIORITY_OF_3, 1)],
        (H_NUMBER, 0),
    ),
    (
        "it is not there and has a wake-up",
        &[DELETE_3],
        &[(WAKEUPS_OF_3, 1)],
        (H_NUMBER, 0),
    ),
    (
        "it is not there and its cell has a code",
        &[DELETE_3],
        &[(CODE_OF_3, 2)],
        (H_NUMBER, 0),
    ),
    (
        "it is not there and its cell has a word",
        &[DELETE_3],
        &[(WORD_OF_3, 7)],
        (H_NUMBER, 0),
    ),
    (
        "it is not there and stands in a queue",
        &[DELETE_3],
        &[(next(33), 3), (next(3), READY_1)],
        (H_QUEUE, 3),
    ),
    (
        "it is not there and leads on",
        &[DELETE_3],
        &[(next(3), READY_1)],
        (H_NUMBER, 0),
    ),
    (
        "it is not there and was interrupted",
        &[DELETE_3],
        &[(HANDLERS, 1), (INTERRUPTED, 3)],
        (H_NUMBER, 0),
    ),
    (
        "it is not there, and its state says dormant",
        &[DELETE_3],
        &[(STATE_OF_3, 0)],
        (H_NUMBER, 0),
    ),
    (
        "it is there, and its state says that it is not",
        &[],
        &[(STATE_OF_3, 6)],
        (H_NUMBER, 0),
    ),
    (
        "it is ready, and all of it but its place is gone",
        &[START_3],
        &[(STATE_OF_3, 6), (PRIORITY_OF_3, 0), (START_OF_3, 0)],
        (H_QUEUE, 3),
    ),
    (
        "it has a state that there is not",
        &[DELETE_3],
        &[(STATE_OF_3, 7)],
        (H_NUMBER, 0),
    ),
];

/// One task, two pools of two blocks.
const TWO_POOLS: [u32; 11] = [1, 1, 1, 1, 0, 0, 0, 0, 2, 2, 2];

const ON_TWO_POOLS: [Worked; 5] = [
    (
        "the second pool's first is passed over",
        &[],
        &[(block_next(258), 34)],
        (H_FREE, 2),
    ),
    (
        "both pools are empty by their links",
        &[],
        &[(block_next(258), FREE_2), (block_next(257), FREE_1)],
        (H_FREE, 1),
    ),
    (
        "the first pool leads into the second",
        &[],
        &[(block_next(2), 33)],
        (H_NUMBER, 0),
    ),
    (
        "the second pool leads into the first",
        &[],
        &[(block_next(258), 1)],
        (H_NUMBER, 0),
    ),
    (
        "the second pool ends at the first one's anchor",
        &[],
        &[(block_next(34), FREE_1)],
        (H_NUMBER, 0),
    ),
];

/// The sheet's setup and a counter that goes to 3. Alarm 1 starts task 3, alarm 2 wakes task 1.
const COUNTED: [u32; 34] = [
    4, 3, 2, 1, 2, 1, 1, 0, 1, 0, 1, 0, 1, 2, 1, 2, 1, 4, 3, 0, 1, 1, 3, 0, 3, 1, 2, 1, 1, 0, 2, 1,
    2, 1,
];
/// Alarm 1 in three ticks, and then again and again.
const SET_1: [i32; 4] = [37, 1, 3, 2];

const ON_COUNTED: [Worked; 16] = [
    ("m beyond 65535", &[], &[(COUNTER, 65536)], (H_NUMBER, 0)),
    ("the count is m", &[], &[(PRESENT, 4)], (H_NUMBER, 0)),
    (
        "m comes down to the count",
        &[],
        &[(PRESENT, 3), (COUNTER, 3)],
        (H_NUMBER, 0),
    ),
    (
        "alarm 8 has no task",
        &[],
        &[(ALARM_TASKS + 8, 0)],
        (H_NUMBER, 0),
    ),
    (
        "alarm 1 has a task beyond the last",
        &[],
        &[(ALARM_TASKS + 1, 4)],
        (H_NUMBER, 0),
    ),
    (
        "alarm 1 neither starts nor wakes",
        &[],
        &[(ALARM_WAKES + 1, 2)],
        (H_NUMBER, 0),
    ),
    (
        "a start kept E_DMT",
        &[],
        &[(ALARM_CODES + 1, 2101)],
        (H_NUMBER, 0),
    ),
    (
        "a start kept E_QOVR",
        &[],
        &[(ALARM_CODES + 1, 2889)],
        (H_NUMBER, 0),
    ),
    (
        "a wake kept H_NODMT",
        &[],
        &[(ALARM_CODES + 2, 3)],
        (H_NUMBER, 0),
    ),
    (
        "a kept code with its sign",
        &[],
        &[(ALARM_CODES + 2, 2100_u32.wrapping_neg())],
        (H_NUMBER, 0),
    ),
    (
        "alarm 1 is due at m",
        &[SET_1],
        &[(ALARM_DUES + 1, 5)],
        (H_NUMBER, 0),
    ),
    (
        "idle alarm 8 is due at m",
        &[],
        &[(ALARM_DUES + 8, 5), (ALARM_PERIODS + 8, 0)],
        (H_NUMBER, 0),
    ),
    (
        "a period beyond m",
        &[SET_1],
        &[(ALARM_PERIODS + 1, 5)],
        (H_NUMBER, 0),
    ),
    (
        "m comes down to the expiry",
        &[SET_1],
        &[(COUNTER, 3)],
        (H_NUMBER, 0),
    ),
    (
        "an alarm is told before a queue",
        &[SET_1],
        &[(next(2), 1), (ALARM_PERIODS + 1, 5)],
        (H_NUMBER, 0),
    ),
    (
        "a queue, and an alarm as it should be",
        &[SET_1],
        &[(next(2), 1), (ALARM_PERIODS + 1, 4)],
        (H_QUEUE, 1),
    ),
];

/// What is no part of the state, or still in its range.
const STILL_SOUND: [(&str, Calls, Words); 7] = [
    (
        "an idle alarm's period",
        &[],
        &[(ALARM_PERIODS + 1, 70_000)],
    ),
    (
        "the words before alarm 1",
        &[],
        &[
            (ALARM_TASKS, 99),
            (ALARM_WAKES, 99),
            (ALARM_CODES, 99),
            (ALARM_DUES, 99),
            (ALARM_PERIODS, 99),
        ],
    ),
    (
        "without a counter nothing counts behind it",
        &[SET_1],
        &[
            (COUNTER, 0),
            (PRESENT, 9),
            (ALARM_TASKS + 1, 99),
            (ALARM_WAKES + 1, 7),
            (ALARM_CODES + 1, 77),
            (ALARM_DUES + 1, 70_000),
            (ALARM_PERIODS + 1, 70_000),
        ],
    ),
    (
        "codes of starts and wakes",
        &[],
        &[
            (ALARM_CODES + 1, 3),
            (ALARM_CODES + 2, 2101),
            (ALARM_CODES + 3, 2100),
            (ALARM_CODES + 4, 2889),
            (ALARM_CODES + 5, 2100),
        ],
    ),
    (
        "m and the count at their ends",
        &[],
        &[(COUNTER, 65535), (PRESENT, 65534)],
    ),
    (
        "expiry and period at their ends",
        &[SET_1],
        &[(ALARM_DUES + 1, 4), (ALARM_PERIODS + 1, 4)],
    ),
    (
        "due at 0, and now",
        &[SET_1],
        &[(ALARM_DUES + 1, 1), (ALARM_PERIODS + 1, 0)],
    ),
];

/// The memory after the calls, with the words overwritten.
fn overwritten(words: &[u32], calls: Calls, overwritten: Words) -> Result<State, String> {
    let setup = setup::read(&setup::bytes_of(words.iter().copied()));
    let mut pair = Pair::fresh(&setup.map_err(|fault| format!("{words:?}: {fault:?}"))?)?;
    for [number, a, b, c] in calls.iter().copied() {
        pair.event(Event::Call {
            context: 0,
            number,
            a,
            b,
            c,
        })?;
    }
    let mut state = pair.kernel;
    for (at, word) in overwritten {
        state = with_word(&state, *at, *word);
    }
    Ok(state)
}

fn judge(tally: &mut Tally, words: &[u32], worked: &Worked) -> Result<(), String> {
    let (what, calls, changed, told) = worked;
    let state = overwritten(words, calls, changed)?;
    let second = layout::shown(&state).map_err(|breach| (breach.code, breach.id));
    if second.as_ref().err() != Some(told) {
        return Err(format!("{what}: {second:?}, by hand {told:?}"));
    }
    tally.judge(&state).map_err(|d| format!("{what}: {d}"))
}

fn judge_sound(tally: &mut Tally) -> Result<(), String> {
    for (what, calls, changed) in STILL_SOUND {
        let state = overwritten(&COUNTED, calls, changed)?;
        if let Err(breach) = layout::shown(&state) {
            return Err(format!("{what}: {breach}, by hand sound"));
        }
        tally.judge(&state).map_err(|d| format!("{what}: {d}"))?;
    }
    Ok(())
}

/// Gives how many damaged ones there are.
pub fn check(tally: &mut Tally) -> Result<usize, String> {
    let memories: [(&[u32], &[Worked]); 6] = [
        (&SHEET, &ON_SHEET),
        (&SHEET, &ON_ITS_POOL),
        (&SHEET, &ON_TASK_3),
        (&TWO_MAILBOXES, &ON_TWO_MAILBOXES),
        (&TWO_POOLS, &ON_TWO_POOLS),
        (&COUNTED, &ON_COUNTED),
    ];
    judge_sound(tally)?;
    for (words, all) in memories {
        all.iter()
            .try_for_each(|worked| judge(tally, words, worked))?;
    }
    Ok(memories.iter().map(|(_, all)| all.len()).sum())
}
