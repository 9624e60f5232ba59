//! The bench sheet of the paper, its further cases and those of requests K2, K5, K7, K9 and K11, as data: what a kernel must answer, word by word.
mod alarms;

use crate::plain::{Answer, Event};
use crate::setup::{self, Setup};

const SETUP: [u32; 16] = [4, 3, 2, 1, 2, 1, 1, 0, 1, 0, 1, 0, 1, 2, 1, 2];

/// Not said by the paper.
const ANY: i64 = i64::MIN;

/// What comes back: code, w1, w2, running, released.
type Wanted = [i64; 5];

enum Step {
    /// The running task calls.
    X(i32, [i32; 3], Wanted),
    /// Entry, a handler's call, return: running is read at the return, all else at the call.
    H(i32, [i32; 3], Wanted),
    /// A handler's call alone.
    Call(i32, [i32; 3], Wanted),
    Enter(Wanted),
    Leave(Wanted),
    Tick(Wanted),
    Running(u32),
    /// Task, code, word.
    Cell(i32, i32, u32),
}
use Step::{Call, Cell, Enter, Leave, Running, Tick, H, X};

const fn code(code: i64) -> Wanted {
    [code, ANY, ANY, ANY, ANY]
}

const fn runs(code: i64, running: i64) -> Wanted {
    [code, ANY, ANY, running, ANY]
}

const fn releases(running: i64, released: i64) -> Wanted {
    [0, ANY, ANY, running, released]
}

const fn words(w1: i64, w2: i64) -> Wanted {
    [0, w1, w2, ANY, ANY]
}

/// Nothing but the code and the running task.
const fn only(code: i64, running: i64) -> Wanted {
    [code, 0, 0, running, 0]
}

/// The running task waits for the flag.
const fn waits(wish: i32, mode: i32) -> Step {
    X(18, [1, wish, mode], code(1))
}

const START_3: Step = X(1, [3, 0, 0], runs(0, 3));

/// On the sheet's setup.
const CASES: [(&str, &[Step]); 51] = [
    ("B1", &[Running(1)]),
    ("B2", &[X(1, [3, 0, 0], runs(0, 3))]),
    (
        "B3",
        &[X(1, [3, 0, 0], runs(0, 3)), X(9, [0, 0, 0], runs(1, 1))],
    ),
    (
        "B4",
        &[
            X(1, [3, 0, 0], runs(0, 3)),
            X(9, [0, 0, 0], runs(1, 1)),
            H(11, [3, 0, 0], releases(3, 1)),
        ],
    ),
    (
        "B5",
        &[
            X(14, [1, 0, 0], runs(1, 2)),
            X(13, [1, 0, 0], releases(2, 1)),
            X(28, [1, 0, 0], words(0, 0)),
        ],
    ),
    ("B6", &[X(5, [0, 0, 0], runs(0, 2))]),
    ("B7", &[X(4, [1, 2, 0], runs(0, 2))]),
    (
        "B8",
        &[
            X(10, [2, 0, 0], code(1)),
            Tick(releases(2, 0)),
            Tick(releases(2, 1)),
            Cell(1, -3413, 0),
        ],
    ),
    (
        "B9",
        &[
            X(24, [1, 0, 0], words(1, 0)),
            X(24, [1, 0, 0], words(2, 0)),
            X(24, [1, 0, 0], code(-5)),
            X(25, [1, 1, 0], code(0)),
            X(24, [1, 0, 0], words(1, 0)),
        ],
    ),
    ("B10", &[X(11, [1, 0, 0], code(-2097))]),
    ("B11", &WAKES),
    (
        "B12",
        &[
            X(18, [1, 3, 2], code(1)),
            X(16, [1, 1, 0], releases(ANY, 0)),
            X(16, [1, 6, 0], releases(ANY, 1)),
            Cell(1, 0, 7),
            X(29, [1, 0, 0], words(0, 0)),
        ],
    ),
    ("B13", &[H(14, [9, 0, 0], code(-2100))]),
    (
        "a broken wait of a suspended task",
        &[
            X(9, [0, 0, 0], code(1)),
            X(7, [1, 0, 0], code(0)),
            X(6, [1, 0, 0], releases(ANY, 1)),
            X(27, [1, 0, 0], words(4, 2)),
            Cell(1, -3414, 0),
        ],
    ),
    ("wai_tsk(-2)", &[X(10, [-2, 0, 0], code(-1831))]),
    (
        "get_tim",
        &[
            Tick(runs(0, 1)),
            Tick(runs(0, 1)),
            X(32, [0, 0, 0], words(0, 2)),
        ],
    ),
    (
        "the scheduler starts at the handler's return",
        &[
            Enter(only(0, 1)),
            Call(1, [3, 0, 0], only(0, 1)),
            Running(1),
            Call(26, [0, 0, 0], [0, 1, 0, 1, 0]),
            Call(27, [1, 0, 0], [0, 2, 2, 1, 0]),
            Call(27, [3, 0, 0], [0, 1, 1, 1, 0]),
            Leave(only(0, 3)),
            Running(3),
        ],
    ),
    (
        "it starts at the outermost return",
        &[
            Enter(only(0, 1)),
            Enter(only(0, 1)),
            Call(1, [3, 0, 0], only(0, 1)),
            Enter(only(0, 1)),
            Leave(only(0, 1)),
            Leave(only(0, 1)),
            Call(27, [3, 0, 0], words(1, 1)),
            Leave(only(0, 3)),
            X(27, [3, 0, 0], words(2, 1)),
        ],
    ),
    ("nested up to 15 deep", &NEST),
    (
        "the interrupted task is suspended meanwhile",
        &[
            Enter(only(0, 1)),
            Call(7, [1, 0, 0], only(0, 1)),
            Running(1),
            Call(27, [1, 0, 0], [0, 4, 2, 1, 0]),
            Call(27, [2, 0, 0], [0, 1, 2, 1, 0]),
            Call(26, [0, 0, 0], [0, 1, 0, 1, 0]),
            Call(7, [1, 0, 0], only(-4, 1)),
            Leave(only(0, 2)),
            X(27, [1, 0, 0], words(4, 2)),
        ],
    ),
    (
        "it is resumed: last in its queue, yet it shows RUN",
        &[
            Enter(only(0, 1)),
            Call(7, [1, 0, 0], only(0, 1)),
            Call(8, [1, 0, 0], only(0, 1)),
            Call(27, [1, 0, 0], words(2, 2)),
            Call(27, [2, 0, 0], words(1, 2)),
            Leave(only(0, 2)),
        ],
    ),
    (
        "it is moved, yet it shows RUN",
        &[
            Enter(only(0, 1)),
            Call(5, [0, 0, 0], only(0, 1)),
            Call(27, [1, 0, 0], words(2, 2)),
            Call(4, [1, 4, 0], only(0, 1)),
            Call(27, [1, 0, 0], words(2, 4)),
            Call(27, [2, 0, 0], words(1, 2)),
            Leave(only(0, 2)),
        ],
    ),
    (
        "an entry while nothing runs",
        &[
            X(9, [0, 0, 0], runs(1, 2)),
            X(9, [0, 0, 0], runs(1, 0)),
            Enter(only(0, 0)),
            Call(26, [0, 0, 0], only(0, 0)),
            Call(11, [1, 0, 0], [0, 0, 0, 0, 1]),
            Call(11, [2, 0, 0], [0, 0, 0, 0, 1]),
            Call(26, [0, 0, 0], only(0, 0)),
            Call(27, [1, 0, 0], words(1, 2)),
            Enter(only(0, 0)),
            // the best queue's head, though nothing is reported
            Call(5, [0, 0, 0], only(0, 0)),
            Leave(only(0, 0)),
            Leave(only(0, 2)),
        ],
    ),
    (
        "rot_rdq(0) with every queue empty",
        &[
            X(9, [0, 0, 0], runs(1, 2)),
            X(9, [0, 0, 0], runs(1, 0)),
            H(5, [0, 0, 0], only(0, 0)),
        ],
    ),
    (
        "rot_rdq(0) acts on the best queue, not on the interrupted task's",
        &[
            Enter(only(0, 1)),
            Call(1, [3, 0, 0], only(0, 1)),
            Call(5, [0, 0, 0], only(0, 1)),
            Leave(only(0, 3)),
            X(2, [0, 0, 0], runs(0, 1)),
        ],
    ),
    (
        "calls of a context that isn't open",
        &[
            Call(13, [1, 0, 0], only(-2629, 1)),
            Call(32, [0, 0, 0], only(-2629, 1)),
            Call(14, [9, 0, 0], only(-2100, 1)),
            Call(0, [0, 0, 0], only(-1, 1)),
            Leave(only(-2629, 1)),
            Enter(only(0, 1)),
            X(26, [0, 0, 0], only(-2629, 1)),
            X(14, [9, 0, 0], only(-2100, 1)),
            X(11, [1, 0, 0], only(-2629, 1)),
            X(40, [0, 0, 0], only(-1, 1)),
            Call(14, [1, 0, 0], only(-2629, 1)),
            Leave(only(0, 1)),
        ],
    ),
    (
        "a tick outside handlers switches",
        &[
            X(1, [3, 0, 0], runs(0, 3)),
            X(10, [1, 0, 0], runs(1, 1)),
            Tick([0, 0, 0, 3, 1]),
            Leave(only(-2629, 3)),
        ],
    ),
    (
        "a tick in a handler switches at the return",
        &[
            X(1, [3, 0, 0], runs(0, 3)),
            X(10, [1, 0, 0], runs(1, 1)),
            Enter(only(0, 1)),
            Tick([0, 0, 0, 1, 1]),
            Cell(3, -3413, 0),
            Call(27, [3, 0, 0], words(1, 1)),
            Leave(only(0, 3)),
        ],
    ),
    (
        "a handler acts on the interrupted task as on any other",
        &[
            Enter(only(0, 1)),
            Call(11, [1, 0, 0], only(0, 1)),
            Call(12, [1, 0, 0], [0, 1, 0, 1, 0]),
            Call(6, [1, 0, 0], only(-2110, 1)),
            Call(1, [1, 0, 0], only(-3, 1)),
            Leave(only(0, 1)),
        ],
    ),
    (
        "set_flg looks at nobody in an empty queue",
        &[
            X(16, [1, 0, 0], only(0, 1)),
            X(16, [1, 1, 0], only(0, 1)),
            H(16, [1, -1, 0], only(0, 1)),
        ],
    ),
    (
        "it looks at all if it releases nobody",
        &[
            START_3,
            waits(4, 0),
            waits(4, 2),
            X(16, [1, 0, 0], [0, 2, 0, 2, 0]),
            X(16, [1, 3, 0], [0, 2, 0, 2, 0]),
            waits(8, 3),
            H(16, [1, 0, 0], [0, 3, 0, 0, 0]),
            H(16, [1, 3, 0], [0, 3, 0, 0, 0]),
        ],
    ),
    (
        "it looks at all if it releases nobody with clearing",
        &[
            START_3,
            waits(1, 0),
            waits(3, 1),
            waits(2, 0),
            H(16, [1, 3, 0], [0, 3, 0, 3, 3]),
        ],
    ),
    (
        "the first released with clearing stands first",
        &[
            START_3,
            waits(1, 2),
            waits(1, 0),
            waits(1, 3),
            H(16, [1, 1, 0], [0, 1, 0, 3, 1]),
            X(29, [1, 0, 0], words(1, 0)),
            // the queue before this call is shorter
            X(16, [1, 1, 0], [0, 2, 0, 3, 2]),
        ],
    ),
    (
        "it stands second",
        &[
            START_3,
            waits(1, 0),
            waits(1, 2),
            waits(1, 1),
            H(16, [1, 1, 0], [0, 2, 0, 3, 2]),
            X(29, [1, 0, 0], words(2, 0)),
        ],
    ),
    (
        "it stands third",
        &[
            START_3,
            waits(1, 0),
            waits(1, 1),
            waits(1, 2),
            H(16, [1, 1, 0], [0, 3, 0, 3, 3]),
        ],
    ),
    (
        "who asked for clearing and stays ends nothing",
        &[
            START_3,
            waits(2, 2),
            waits(1, 0),
            waits(1, 3),
            H(16, [1, 1, 0], [0, 3, 0, 1, 2]),
        ],
    ),
    (
        "a suspended waiter is looked at",
        &[
            START_3,
            waits(1, 2),
            waits(1, 0),
            X(7, [3, 0, 0], code(0)),
            X(7, [1, 0, 0], code(0)),
            X(16, [1, 2, 0], [0, 2, 0, 2, 0]),
            X(16, [1, 1, 0], [0, 1, 0, 2, 1]),
            X(27, [3, 0, 0], words(4, 1)),
            X(16, [1, 1, 0], [0, 1, 0, 2, 1]),
            X(16, [1, 1, 0], [0, 0, 0, 2, 0]),
        ],
    ),
    (
        "a refused set_flg tells of no waiter",
        &[
            START_3,
            waits(1, 0),
            waits(1, 2),
            X(16, [0, 1, 0], only(-2100, 2)),
            H(16, [2, 1, 0], only(-2100, 2)),
            Call(16, [1, 1, 0], only(-2629, 2)),
            Enter(only(0, 2)),
            X(16, [1, 1, 0], only(-2629, 2)),
            Leave(only(0, 2)),
            X(9, [0, 0, 0], runs(1, 0)),
            X(16, [1, 1, 0], only(-2629, 0)),
        ],
    ),
    (
        "a grant takes the block longest free",
        &[
            X(24, [1, 0, 0], words(1, 0)),
            X(24, [1, 0, 0], words(2, 0)),
            X(25, [1, 2, 0], code(0)),
            X(25, [1, 1, 0], code(0)),
            X(31, [1, 0, 0], words(0, 2)),
            X(24, [1, 0, 0], words(2, 0)),
            X(24, [1, 0, 0], words(1, 0)),
        ],
    ),
    (
        "one that was never out is free longer than a returned one",
        &[
            X(23, [1, 0, 0], words(1, 0)),
            X(25, [1, 1, 0], code(0)),
            X(25, [1, 1, 0], code(-10)),
            X(23, [1, 0, 0], words(2, 0)),
            H(24, [1, 0, 0], words(1, 0)),
        ],
    ),
    (
        "a block returned to a waiter is not free between",
        &[
            START_3,
            X(23, [1, 0, 0], words(1, 0)),
            X(23, [1, 0, 0], words(2, 0)),
            X(23, [1, 0, 0], runs(1, 1)),
            X(25, [1, 2, 0], releases(3, 1)),
            Cell(3, 0, 2),
            X(25, [1, 1, 0], code(0)),
            X(25, [1, 2, 0], code(0)),
            X(24, [1, 0, 0], words(1, 0)),
        ],
    ),
    (
        "every call on a task that is not there is refused",
        &[
            X(34, [3, 0, 0], only(0, 1)),
            X(1, [3, 0, 0], only(-2100, 1)),
            X(3, [3, 0, 0], only(-2100, 1)),
            X(4, [3, 1, 0], only(-2100, 1)),
            X(6, [3, 0, 0], only(-2100, 1)),
            X(7, [3, 0, 0], only(-2100, 1)),
            X(8, [3, 0, 0], only(-2100, 1)),
            X(11, [3, 0, 0], only(-2100, 1)),
            X(12, [3, 0, 0], only(-2100, 1)),
            X(27, [3, 0, 0], only(-2100, 1)),
            X(34, [3, 0, 0], only(-2100, 1)),
            Cell(3, -2100, 0),
            Cell(4, -2100, 0),
        ],
    ),
    (
        "a handler's too, but for calls of tasks only",
        &[
            X(34, [3, 0, 0], only(0, 1)),
            H(1, [3, 0, 0], only(-2100, 1)),
            H(4, [3, 1, 0], only(-2100, 1)),
            H(11, [3, 0, 0], only(-2100, 1)),
            H(27, [3, 0, 0], only(-2100, 1)),
            H(3, [3, 0, 0], only(-2629, 1)),
            H(34, [3, 0, 0], only(-2629, 1)),
            H(33, [3, 1, 0], only(-2629, 1)),
            H(33, [1, 1, 0], only(-2629, 1)),
            H(35, [0, 0, 0], only(-2629, 1)),
        ],
    ),
    (
        "words come before whether a task is there",
        &[
            X(34, [3, 0, 0], only(0, 1)),
            X(4, [3, 5, 0], only(-1830, 1)),
            Call(1, [3, 0, 0], only(-2629, 1)),
            Enter(only(0, 1)),
            X(27, [3, 0, 0], only(-2629, 1)),
            Leave(only(0, 1)),
        ],
    ),
    (
        "an id is made again, with another priority",
        &[
            X(34, [3, 0, 0], only(0, 1)),
            X(33, [3, 4, 0], only(0, 1)),
            X(27, [3, 0, 0], words(0, 4)),
            Cell(3, 0, 0),
            X(33, [3, 1, 0], only(-8, 1)),
            X(1, [3, 0, 0], only(0, 1)),
            X(27, [3, 0, 0], words(1, 4)),
            X(4, [3, 1, 0], runs(0, 3)),
            X(2, [0, 0, 0], runs(0, 1)),
            X(27, [3, 0, 0], words(0, 4)),
        ],
    ),
    (
        "cre_tsk is refused",
        &[
            X(33, [1, 1, 0], only(-8, 1)),
            X(33, [2, 4, 0], only(-8, 1)),
            X(33, [3, 1, 0], only(-8, 1)),
            X(33, [0, 1, 0], only(-2100, 1)),
            X(33, [4, 1, 0], only(-2100, 1)),
            X(33, [4, 9, 0], only(-2100, 1)),
            X(33, [3, 0, 0], only(-1830, 1)),
            X(33, [3, 5, 0], only(-1830, 1)),
        ],
    ),
    (
        "del_tsk is for a dormant task",
        &[
            X(34, [1, 0, 0], only(-3, 1)),
            X(34, [2, 0, 0], only(-3, 1)),
            X(34, [0, 0, 0], only(-2100, 1)),
            X(34, [4, 0, 0], only(-2100, 1)),
            X(7, [2, 0, 0], code(0)),
            X(34, [2, 0, 0], only(-3, 1)),
            X(3, [2, 0, 0], code(0)),
            X(34, [2, 0, 0], only(0, 1)),
        ],
    ),
    (
        "exd_tsk ends and deletes its caller",
        &[
            X(35, [0, 0, 0], only(0, 2)),
            X(27, [1, 0, 0], only(-2100, 2)),
            Cell(1, -2100, 0),
            X(33, [1, 3, 0], only(0, 2)),
            X(27, [1, 0, 0], words(0, 3)),
        ],
    ),
    (
        "a deleted task keeps neither cell nor wake-ups",
        &[
            X(9, [0, 0, 0], runs(1, 2)),
            X(6, [1, 0, 0], releases(2, 1)),
            X(11, [1, 0, 0], code(0)),
            X(3, [1, 0, 0], code(0)),
            Cell(1, -3414, 0),
            X(34, [1, 0, 0], code(0)),
            Cell(1, -2100, 0),
            X(33, [1, 2, 0], code(0)),
            Cell(1, 0, 0),
            X(1, [1, 0, 0], code(0)),
            X(12, [1, 0, 0], words(0, 0)),
        ],
    ),
    (
        "all that runs is deleted",
        &[
            X(35, [0, 0, 0], only(0, 2)),
            X(35, [0, 0, 0], only(0, 0)),
            X(33, [1, 1, 0], only(-2629, 0)),
            H(33, [1, 1, 0], only(-2629, 0)),
            H(11, [1, 0, 0], only(-2100, 0)),
            H(1, [3, 0, 0], only(0, 3)),
            X(33, [1, 1, 0], only(0, 3)),
            X(34, [2, 0, 0], only(-2100, 3)),
        ],
    ),
    (
        "a deleted task's blocks stay out",
        &[
            X(23, [1, 0, 0], words(1, 0)),
            X(35, [0, 0, 0], only(0, 2)),
            X(31, [1, 0, 0], words(0, 1)),
            X(25, [1, 1, 0], code(0)),
        ],
    ),
];

const WAKE: Step = H(11, [1, 0, 0], runs(0, 1));
const WAKES: [Step; 16] = [
    WAKE,
    WAKE,
    WAKE,
    WAKE,
    WAKE,
    WAKE,
    WAKE,
    WAKE,
    WAKE,
    WAKE,
    WAKE,
    WAKE,
    WAKE,
    WAKE,
    WAKE,
    H(11, [1, 0, 0], code(-2889)),
];

const IN: Step = Enter(only(0, 1));
const OUT: Step = Leave(only(0, 1));
const NEST: [Step; 34] = [
    IN,
    IN,
    IN,
    IN,
    IN,
    IN,
    IN,
    IN,
    IN,
    IN,
    IN,
    IN,
    IN,
    IN,
    IN,
    Enter(only(-7, 1)),
    // needs no entry
    Tick(only(0, 1)),
    Call(32, [0, 0, 0], [0, 0, 1, 1, 0]),
    OUT,
    OUT,
    OUT,
    OUT,
    OUT,
    OUT,
    OUT,
    OUT,
    OUT,
    OUT,
    OUT,
    OUT,
    OUT,
    OUT,
    OUT,
    Leave(only(-2629, 1)),
];

// ---- long queues

const TASKS: usize = 32;

/// All tasks run in turn, and there is one flag.
fn crowd() -> Setup {
    Setup {
        priorities: 1,
        tasks: vec![(1, true); TASKS],
        semaphores: vec![],
        flags: vec![0],
        mailboxes: 0,
        messages: 0,
        pools: vec![],
        counter: None,
    }
}

/// set_flg on a queue of so many; the first released with clearing stands at the place `clearing`, 0 if there is none.
fn queue(set_flg: fn(i32, [i32; 3], Wanted) -> Step, waiters: i64, clearing: i64) -> Vec<Step> {
    let (looked, ahead) = match clearing {
        0 => (waiters, waiters),
        _ => (clearing, clearing - 1),
    };
    let wait = |place| match place % 2 {
        _ if place > ahead => waits(1, 2),
        // asks for clearing and stays
        1 => waits(2, 2),
        _ => waits(1, 0),
    };
    let released = ahead / 2 + i64::from(clearing > 0);
    let set = set_flg(16, [1, 1, 0], [0, looked, 0, ANY, released]);
    (1..=waiters).map(wait).chain([set]).collect()
}

/// On the crowd: every queue that a task and a handler can meet, with the clearing anywhere and nowhere.
fn queues() -> Vec<(String, Vec<Step>)> {
    let mut waiting: Vec<Step> = (0..TASKS).map(|_| waits(1, 0)).collect();
    waiting.push(X(16, [1, 1, 0], only(-2629, 0)));
    let mut all = vec![("no task is left to call".to_string(), waiting)];
    for waiters in 0..=TASKS as i64 {
        for clearing in 0..=waiters {
            let name = |by: &str| format!("{by}: {waiters} waiters, clearing at {clearing}");
            all.push((name("a handler"), queue(H, waiters, clearing)));
            if waiters < TASKS as i64 {
                all.push((name("a task"), queue(X, waiters, clearing)));
            }
        }
    }
    all
}

// ---- playing

/// What the cases are played on: one kernel, or several that must agree.
pub trait Bench {
    fn event(&mut self, event: Event) -> Result<Answer, String>;
    fn running(&self) -> Result<u32, String>;
    fn cell(&self, task: i32) -> Result<(i32, u32), String>;
}

/// The sheet's setup.
pub fn setup() -> Result<Setup, String> {
    setup::read(&setup::bytes_of(SETUP)).map_err(|fault| format!("the sheet's setup: {fault:?}"))
}

fn agree(
    what: &str,
    got: impl std::fmt::Debug,
    wanted: &[i64],
    told: &[i64],
) -> Result<(), String> {
    let agrees = |(told, wanted): (&i64, &i64)| *wanted == ANY || told == wanted;
    if told.iter().zip(wanted).all(agrees) {
        Ok(())
    } else {
        Err(format!("{what}: {got:?}, the paper {wanted:?}"))
    }
}

fn event(bench: &mut impl Bench, event: Event, wanted: &Wanted) -> Result<(), String> {
    let got = bench.event(event)?;
    let told = [
        got.code.into(),
        got.w1.into(),
        got.w2.into(),
        got.running.into(),
        got.released.into(),
    ];
    agree(&format!("{event:?}"), got, wanted, &told)
}

fn call(
    bench: &mut impl Bench,
    context: i32,
    number: i32,
    [a, b, c]: [i32; 3],
    wanted: &Wanted,
) -> Result<(), String> {
    let call = Event::Call {
        context,
        number,
        a,
        b,
        c,
    };
    event(bench, call, wanted)
}

fn handler(
    bench: &mut impl Bench,
    number: i32,
    words: [i32; 3],
    wanted: &Wanted,
) -> Result<(), String> {
    let [code, w1, w2, running, released] = *wanted;
    event(bench, Event::Enter, &only(0, ANY))?;
    call(bench, 1, number, words, &[code, w1, w2, ANY, released])?;
    event(bench, Event::Leave, &only(0, running))
}

fn step(bench: &mut impl Bench, step: &Step) -> Result<(), String> {
    match step {
        X(number, words, wanted) => call(bench, 0, *number, *words, wanted),
        H(number, words, wanted) => handler(bench, *number, *words, wanted),
        Call(number, words, wanted) => call(bench, 1, *number, *words, wanted),
        Enter(wanted) => event(bench, Event::Enter, wanted),
        Leave(wanted) => event(bench, Event::Leave, wanted),
        Tick(wanted) => event(bench, Event::Tick, wanted),
        Running(task) => {
            let got = bench.running()?;
            agree("running task", got, &[i64::from(*task)], &[got.into()])
        }
        Cell(task, code, word) => {
            let (got, with) = bench.cell(*task)?;
            let wanted = [i64::from(*code), i64::from(*word)];
            agree("cell", (got, with), &wanted, &[got.into(), with.into()])
        }
    }
}

fn play(bench: &mut impl Bench, name: &str, steps: &[Step]) -> Result<(), String> {
    let played = steps.iter().try_for_each(|each| step(bench, each));
    played.map_err(|d| format!("{name}: {d}"))
}

/// Plays each case on a bench of its own; gives how many there are.
pub fn check<B: Bench>(fresh: impl Fn(&Setup) -> Result<B, String>) -> Result<usize, String> {
    let (sheet, counted) = (setup()?, alarms::setup()?);
    let (crowd, queues) = (crowd(), queues());
    for (name, steps) in CASES.iter().chain(&alarms::UNCOUNTED) {
        play(&mut fresh(&sheet)?, name, steps)?;
    }
    for (name, steps) in alarms::CASES {
        play(&mut fresh(&counted)?, name, steps)?;
    }
    for (name, steps) in &queues {
        play(&mut fresh(&crowd)?, name, steps)?;
    }
    let alarms = alarms::UNCOUNTED.len() + alarms::CASES.len();
    Ok(CASES.len() + alarms + queues.len())
}
