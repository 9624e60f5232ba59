//! Request K11 by hand.
use super::*;

/// The sheet's setup and a counter that goes to 3. Alarms 1 and 3 start task 3, which alarm 4 wakes; alarm 6 starts task 1, which alarm 2
/// wakes; the others wake task 2.
const COUNTED: [u32; 34] = [
    4, 3, 2, 1, 2, 1, 1, 0, 1, 0, 1, 0, 1, 2, 1, 2, 1, 4, 3, 0, 1, 1, 3, 0, 3, 1, 2, 1, 1, 0, 2, 1,
    2, 1,
];

const IDLE: Step = Tick(only(0, 1));

/// alm_sts: in use or not, and the kept code without its sign.
const fn status(alarm: i32, used: i64, kept: i64) -> Step {
    X(39, [alarm, 0, 0], words(used, kept))
}

pub(super) fn setup() -> Result<Setup, String> {
    setup::read(&setup::bytes_of(COUNTED)).map_err(|fault| format!("a counter: {fault:?}"))
}

/// On the sheet's own setup.
pub(super) const UNCOUNTED: [(&str, &[Step]); 1] = [(
    "without a counter there is no alarm",
    &[
        X(36, [1, 0, 0], only(-2, 1)),
        X(37, [1, 0, 0], only(-2, 1)),
        X(38, [1, 0, 0], only(-2, 1)),
        X(39, [1, 0, 0], only(-2, 1)),
        H(39, [8, 0, 0], only(-2, 1)),
        // before the context
        Call(39, [1, 0, 0], only(-2, 1)),
        X(40, [1, 0, 0], only(-1, 1)),
        IDLE,
    ],
)];

pub(super) const CASES: [(&str, &[Step]); 23] = [
    (
        "all alarms are idle at first",
        &[
            status(1, 0, 0),
            status(8, 0, 0),
            X(39, [0, 0, 0], only(-2, 1)),
            X(39, [9, 0, 0], only(-2, 1)),
            X(39, [-1, 0, 0], only(-2, 1)),
            X(38, [1, 0, 0], only(-12, 1)),
            X(38, [9, 0, 0], only(-2, 1)),
            IDLE,
            IDLE,
            IDLE,
            IDLE,
            X(40, [1, 0, 0], only(-1, 1)),
        ],
    ),
    (
        "counts and periods go from 0 to m",
        &[
            X(36, [0, 0, 0], only(-2, 1)),
            X(36, [9, 0, 0], only(-2, 1)),
            X(36, [1, -1, 0], only(-2, 1)),
            X(36, [1, 5, 0], only(-2, 1)),
            X(36, [1, 0, -1], only(-2, 1)),
            X(36, [1, 0, 5], only(-2, 1)),
            X(37, [1, -1, 0], only(-2, 1)),
            X(37, [1, 5, 0], only(-2, 1)),
            X(37, [1, 0, -1], only(-2, 1)),
            X(37, [1, 0, 5], only(-2, 1)),
            X(36, [1, 4, 4], only(0, 1)),
            X(36, [1, 5, 0], only(-2, 1)),
            X(36, [1, 0, 0], only(-11, 1)),
            X(37, [1, 0, 0], only(-11, 1)),
            status(1, 1, 0),
            X(38, [1, 0, 0], only(0, 1)),
            X(38, [1, 0, 0], only(-12, 1)),
            X(37, [1, 0, 0], only(0, 1)),
        ],
    ),
    (
        "tasks and handlers may call, words come before the context",
        &[
            Call(36, [1, 0, 0], only(-2629, 1)),
            Call(39, [1, 0, 0], only(-2629, 1)),
            Call(36, [9, 0, 0], only(-2, 1)),
            Call(38, [1, 0, 0], only(-2629, 1)),
            Enter(only(0, 1)),
            X(39, [1, 0, 0], only(-2629, 1)),
            X(39, [0, 0, 0], only(-2, 1)),
            Call(37, [1, 1, 0], only(0, 1)),
            Call(37, [1, 1, 0], only(-11, 1)),
            Call(39, [1, 0, 0], [0, 1, 0, 1, 0]),
            Call(38, [1, 0, 0], only(0, 1)),
            Call(38, [1, 0, 0], only(-12, 1)),
            Leave(only(0, 1)),
        ],
    ),
    (
        "an absolute count",
        &[
            X(36, [1, 2, 0], only(0, 1)),
            IDLE,
            status(1, 1, 0),
            Tick(only(0, 3)),
            status(1, 0, 0),
        ],
    ),
    (
        "an absolute count that is the present one",
        &[
            IDLE,
            X(36, [1, 1, 0], only(0, 1)),
            IDLE,
            IDLE,
            IDLE,
            Tick(only(0, 3)),
        ],
    ),
    (
        "an absolute count of m is 0",
        &[
            IDLE,
            X(36, [1, 4, 0], only(0, 1)),
            IDLE,
            IDLE,
            Tick(only(0, 3)),
        ],
    ),
    (
        "a relative count",
        &[X(37, [1, 1, 0], only(0, 1)), Tick(only(0, 3))],
    ),
    (
        "a relative count round the end",
        &[
            IDLE,
            IDLE,
            IDLE,
            X(37, [1, 3, 0], only(0, 1)),
            IDLE,
            IDLE,
            Tick(only(0, 3)),
        ],
    ),
    (
        "a relative count of 0 is a round",
        &[
            IDLE,
            X(37, [1, 0, 0], only(0, 1)),
            IDLE,
            IDLE,
            IDLE,
            Tick(only(0, 3)),
        ],
    ),
    (
        "a relative count of m, too",
        &[
            IDLE,
            X(37, [1, 4, 0], only(0, 1)),
            IDLE,
            IDLE,
            IDLE,
            Tick(only(0, 3)),
        ],
    ),
    (
        "a cancelled alarm does not fire",
        &[
            X(37, [1, 1, 1], only(0, 1)),
            X(38, [1, 0, 0], only(0, 1)),
            IDLE,
            IDLE,
            status(1, 0, 0),
        ],
    ),
    (
        "a period sets it again, refused or not",
        &[
            X(37, [6, 1, 2], only(0, 1)),
            IDLE,
            status(6, 1, 3),
            X(36, [6, 0, 0], only(-11, 1)),
            IDLE,
            // task 1 is dormant when its alarm fires again, and runs behind task 2
            X(2, [0, 0, 0], only(0, 2)),
            X(27, [1, 0, 0], words(0, 2)),
            Tick(only(0, 2)),
            X(27, [1, 0, 0], words(1, 2)),
            status(6, 1, 0),
            X(38, [6, 0, 0], only(0, 2)),
            Tick(only(0, 2)),
            Tick(only(0, 2)),
            status(6, 0, 0),
        ],
    ),
    (
        "a period of m is a round",
        &[
            X(37, [5, 1, 4], only(0, 1)),
            IDLE,
            X(12, [2, 0, 0], words(1, 0)),
            IDLE,
            IDLE,
            IDLE,
            X(12, [2, 0, 0], words(0, 0)),
            IDLE,
            X(12, [2, 0, 0], words(1, 0)),
        ],
    ),
    (
        "a sleeper is released and counted",
        &[
            X(9, [0, 0, 0], runs(1, 2)),
            X(37, [2, 1, 0], only(0, 2)),
            Tick([0, 0, 0, 2, 1]),
            Cell(1, 0, 0),
            status(2, 0, 0),
        ],
    ),
    (
        "a suspended sleeper, too",
        &[
            X(9, [0, 0, 0], runs(1, 2)),
            X(7, [1, 0, 0], code(0)),
            X(37, [2, 1, 0], only(0, 2)),
            Tick([0, 0, 0, 2, 1]),
            X(27, [1, 0, 0], words(4, 2)),
        ],
    ),
    (
        "timeouts come first",
        &[
            X(10, [1, 0, 0], runs(1, 2)),
            X(37, [2, 1, 0], only(0, 2)),
            Tick([0, 0, 0, 2, 1]),
            Cell(1, -3413, 0),
            X(12, [1, 0, 0], words(1, 0)),
        ],
    ),
    (
        "alarms come by number: started, then woken",
        &[
            X(37, [4, 1, 1], only(0, 1)),
            IDLE,
            status(4, 1, 2101),
            X(37, [1, 1, 0], only(0, 1)),
            Tick(only(0, 3)),
            status(4, 1, 0),
            X(12, [3, 0, 0], words(1, 0)),
        ],
    ),
    (
        "the second start finds the task not dormant",
        &[
            X(37, [3, 1, 0], only(0, 1)),
            X(37, [1, 1, 0], only(0, 1)),
            Tick(only(0, 3)),
            status(1, 0, 0),
            status(3, 0, 3),
        ],
    ),
    ("a wake-up beyond 15", &FULL),
    (
        "the alarm of a deleted task stays set",
        &[
            X(37, [1, 1, 1], only(0, 1)),
            X(37, [4, 1, 0], only(0, 1)),
            X(34, [3, 0, 0], only(0, 1)),
            IDLE,
            status(1, 1, 2100),
            status(4, 0, 2100),
            X(33, [3, 1, 0], only(0, 1)),
            Tick(only(0, 3)),
            status(1, 1, 0),
        ],
    ),
    (
        "what an alarm starts runs at the handler's return",
        &[
            X(37, [1, 1, 0], only(0, 1)),
            Enter(only(0, 1)),
            IDLE,
            Call(27, [3, 0, 0], words(1, 1)),
            Leave(only(0, 3)),
        ],
    ),
    (
        "an alarm fires while nothing runs",
        &[
            X(9, [0, 0, 0], runs(1, 2)),
            X(37, [2, 2, 0], only(0, 2)),
            X(9, [0, 0, 0], runs(1, 0)),
            X(39, [2, 0, 0], only(-2629, 0)),
            Tick(only(0, 0)),
            Tick([0, 0, 0, 1, 1]),
        ],
    ),
    (
        "the running task is woken as by a handler",
        &[
            X(37, [2, 1, 0], only(0, 1)),
            IDLE,
            status(2, 0, 0),
            X(9, [0, 0, 0], only(0, 1)),
        ],
    ),
];

/// Three alarms wake task 2 at each of five ticks, and once more at a sixth.
const FULL: [Step; 16] = [
    X(37, [5, 1, 1], only(0, 1)),
    X(37, [7, 1, 1], only(0, 1)),
    X(37, [8, 1, 1], only(0, 1)),
    IDLE,
    IDLE,
    IDLE,
    IDLE,
    IDLE,
    status(8, 1, 0),
    X(38, [7, 0, 0], only(0, 1)),
    IDLE,
    status(5, 1, 2889),
    status(7, 0, 0),
    status(8, 1, 2889),
    X(12, [2, 0, 0], words(15, 0)),
    IDLE,
];
