//! What a run can reach, by the papers: which code each call can give in which context, with a handler open and with none, and what a cell
//! can hold. A run that misses one tested too little.
use second::picture::Standing;
use second::plain::{names_task, Event, Plain, CALLS, CRE_TSK};
use std::collections::{BTreeMap, BTreeSet};

/// An event's kind; of a call also whether a handler is open.
#[derive(Clone, Copy, PartialEq, Eq, PartialOrd, Ord, Debug)]
pub enum Kind {
    Tick,
    Enter,
    Leave,
    Task { open: bool },
    Handler { open: bool },
    NoContext,
}

impl Kind {
    pub fn of(event: Event, open: bool) -> Kind {
        match event {
            Event::Tick => Kind::Tick,
            Event::Enter => Kind::Enter,
            Event::Leave => Kind::Leave,
            Event::Call { context: 0, .. } => Kind::Task { open },
            Event::Call { context: 1, .. } => Kind::Handler { open },
            Event::Call { .. } => Kind::NoContext,
        }
    }
}

/// The call's number and its codes but for H_CALL and E_CTX.
const OWN_CODES: [(i32, &[i32]); 39] = [
    (1, &[0, -2100, -3]),
    (2, &[0]),
    (3, &[0, -2100, -2097, -2101]),
    (4, &[0, -2100, -1830, -2101]),
    (5, &[0, -1830]),
    (6, &[0, -2100, -2110]),
    (7, &[0, -2100, -2097, -2101, -4]),
    (8, &[0, -2100, -2104]),
    (9, &[0, 1]),
    (10, &[0, 1, -1831, -3413]),
    (11, &[0, -2100, -2097, -2101, -2889]),
    (12, &[0, -2100, -2101]),
    (13, &[0, -2100, -2889]),
    (14, &[0, 1, -2100]),
    (15, &[0, -2100, -5]),
    (16, &[0, -2100]),
    (17, &[0, -2100]),
    (18, &[0, 1, -2100, -2]),
    (19, &[0, -2100, -2, -5]),
    (20, &[0, -2100, -2, -6]),
    (21, &[0, 1, -2100]),
    (22, &[0, -2100, -5]),
    (23, &[0, 1, -2100]),
    (24, &[0, -2100, -5]),
    (25, &[0, -2100, -10]),
    (26, &[0]),
    (27, &[0, -2100]),
    (28, &[0, -2100]),
    (29, &[0, -2100]),
    (30, &[0, -2100]),
    (31, &[0, -2100]),
    (32, &[0]),
    (33, &[0, -2100, -1830, -8]),
    (34, &[0, -2100, -3]),
    (35, &[0]),
    (36, &[0, -2, -11]),
    (37, &[0, -2, -11]),
    (38, &[0, -2, -12]),
    (39, &[0, -2]),
];

const TASK_ONLY: [i32; 11] = [2, 3, 9, 10, 14, 18, 21, 23, 33, 34, 35];
/// Of the words, which are judged before the context.
const WORD_CODES: [i32; 4] = [-2100, -1830, -1831, -2];
const E_SELF: i32 = -2097;
const E_CTX: i32 = -2629;
const H_NEST: i32 = -7;
const H_CALL: i32 = -1;
/// The last is told of a task that is not there.
const CELL_CODES: [i32; 4] = [0, -3413, -3414, E_NOEXS];
const E_NOEXS: i32 = -2100;
/// A call number that doesn't exist is counted here; so is an event that isn't a call.
const NO_CALL: i32 = 0;

/// What a call can answer but for H_CALL.
fn codes(kind: Kind, call: i32, own: &[i32]) -> Vec<i32> {
    let of_words = |code: &i32| WORD_CODES.contains(code);
    let not_self = |code: &i32| *code != E_SELF;
    let refused = || own.iter().copied().filter(of_words).chain([E_CTX]);
    match kind {
        // E_CTX while nothing runs
        Kind::Task { open: false } => own.iter().copied().chain([E_CTX]).collect(),
        Kind::Handler { open: true } if !TASK_ONLY.contains(&call) => {
            own.iter().copied().filter(not_self).collect()
        }
        _ => refused().collect(),
    }
}

fn reachable() -> Vec<(Kind, i32, i32)> {
    let mut all = vec![
        (Kind::Tick, NO_CALL, 0),
        (Kind::Enter, NO_CALL, 0),
        (Kind::Enter, NO_CALL, H_NEST),
        (Kind::Leave, NO_CALL, 0),
        (Kind::Leave, NO_CALL, E_CTX),
        (Kind::NoContext, NO_CALL, H_CALL),
    ];
    all.extend(OWN_CODES.map(|(call, _)| (Kind::NoContext, call, H_CALL)));
    for open in [false, true] {
        for kind in [Kind::Task { open }, Kind::Handler { open }] {
            all.push((kind, NO_CALL, H_CALL));
            for (call, own) in OWN_CODES {
                all.extend(
                    codes(kind, call, own)
                        .iter()
                        .map(|code| (kind, call, *code)),
                );
            }
        }
    }
    all
}

/// The calls, by kind, that can name a task that is not there.
fn on_nobody() -> Vec<(Kind, i32)> {
    let calls = (1..=CALLS).filter(|call| names_task(*call) && *call != CRE_TSK);
    let kinds = |call| {
        let handlers = (!TASK_ONLY.contains(&call)).then_some((Kind::Handler { open: true }, call));
        [(Kind::Task { open: false }, call)]
            .into_iter()
            .chain(handlers)
    };
    calls.flat_map(kinds).collect()
}

/// Whether an event is a call on an id in range that is not there.
fn names_nobody(before: &Plain, event: Event) -> bool {
    let Event::Call { number, a, .. } = event else {
        return false;
    };
    let inside = (1..=before.counts().tasks as i32).contains(&a);
    names_task(number) && inside && before.task(a as u32).standing == Standing::Absent
}

/// How often each was reached.
#[derive(Default)]
pub struct Reached {
    answers: BTreeMap<(Kind, i32, i32), u64>,
    /// E_NOEXS for a task that is not there.
    nobody: BTreeMap<(Kind, i32), u64>,
    cells: BTreeMap<i32, u64>,
}

impl Reached {
    /// By the state before the event.
    pub fn answer(&mut self, before: &Plain, event: Event, code: i32) {
        let call = match event {
            Event::Call { number, .. } if (1..=CALLS).contains(&number) => number,
            _ => NO_CALL,
        };
        let kind = Kind::of(event, before.depth() > 0);
        *self.answers.entry((kind, call, code)).or_default() += 1;
        if code == E_NOEXS && names_nobody(before, event) {
            *self.nobody.entry((kind, call)).or_default() += 1;
        }
    }

    pub fn cell(&mut self, code: i32) {
        *self.cells.entry(code).or_default() += 1;
    }

    fn codes(&self) -> BTreeMap<i32, u64> {
        let mut codes = BTreeMap::new();
        for ((_, _, code), times) in &self.answers {
            *codes.entry(*code).or_default() += times;
        }
        codes
    }

    /// The table of codes, if nothing is missing and nothing is there that can't be.
    pub fn table(&self) -> Result<String, String> {
        let expected = reachable();
        let missing: Vec<_> = expected
            .iter()
            .filter(|p| !self.answers.contains_key(p))
            .collect();
        let strange: Vec<_> = self
            .answers
            .keys()
            .filter(|p| !expected.contains(p))
            .collect();
        if !missing.is_empty() || !strange.is_empty() {
            return Err(format!(
                "(kind, call, code) not reached: {missing:?}; not in the paper: {strange:?}"
            ));
        }
        let nobody = on_nobody();
        if !self
            .nobody
            .keys()
            .eq(nobody.iter().collect::<BTreeSet<_>>())
        {
            return Err(format!(
                "calls on a task that is not there: {:?}, not {nobody:?}",
                self.nobody
            ));
        }
        if CELL_CODES.iter().any(|code| !self.cells.contains_key(code)) {
            return Err(format!("cells only had {:?}", self.cells.keys()));
        }
        let mut lines = format!(
            "all {} kinds of call and code were reached, and all {} of calls on a task that is not there\n",
            expected.len(),
            nobody.len()
        );
        for (code, times) in self.codes() {
            lines += &format!("  code {code:6}: {times:8} answers\n");
        }
        for code in CELL_CODES {
            lines += &format!("  cell {code:6}: {:8} read\n", self.cells[&code]);
        }
        Ok(lines)
    }
}
