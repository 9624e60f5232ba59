//! The states of all tasks at once: over random runs they are what tsk_sts answers of each task, and those of the second kernel; the places
//! of higher ids are left, and on a damaged memory all of them.
use crate::pair::Pair;
use crate::Verdict;
use okrozumba::{call, code, Code, State, TaskState, MESSAGES, STATE_WORDS, TASKS};
use second::figures;
use second::random::Random;
use second::script::{self, Author, Size, SIZES};

const RUNS: u32 = 240;
const EVENTS: u32 = 200;
/// What stands in a place that nothing is written to.
const LEFT: u32 = 0xdead_beef;

#[repr(C)]
#[derive(Clone, Copy, PartialEq, Eq, Debug)]
struct Shown {
    code: i32,
    tasks: u32,
}

extern "C" {
    fn okrozumba_states(
        words: &[u32; STATE_WORDS],
        messages: &[u32; MESSAGES],
        states: &mut [u32; TASKS],
    ) -> Shown;
}

type Told = (Shown, [u32; TASKS]);

/// What the archive says of a memory, places that it leaves included.
fn told(kernel: &State) -> Told {
    let mut states = [LEFT; TASKS];
    // SAFETY: arrays of the sizes that the header has, borrowed apart.
    let shown = unsafe { okrozumba_states(kernel.words(), kernel.messages(), &mut states) };
    (shown, states)
}

/// What it says where the states are these.
fn listed(states: &[u32]) -> Told {
    let shown = Shown {
        code: code::E_OK,
        tasks: states.len() as u32,
    };
    let mut places = [LEFT; TASKS];
    places[..states.len()].copy_from_slice(states);
    (shown, places)
}

/// The second kernel's.
fn plains(pair: &Pair) -> Vec<u32> {
    (1..=pair.plain.counts().tasks)
        .map(|id| figures::state(&pair.plain, id) as u32)
        .collect()
}

/// w1 of tsk_sts of each task, from whoever may call, and 6 of a task that is not there.
fn by_calls(pair: &Pair) -> Result<Vec<u32>, String> {
    let mut kernel = pair.kernel.clone();
    let in_handler = pair.plain.depth() > 0 || kernel.running() == 0;
    if pair.plain.depth() == 0 && in_handler {
        // nothing runs, so that a handler must ask; entering changes the state of no task
        kernel.enter();
    }
    let caller = i32::from(in_handler);
    let mut state = |id: u32| {
        let answer = kernel.call(caller, call::TSK_STS, id as i32, 0, 0);
        match answer.code {
            code::E_OK => Ok(answer.w1),
            code::E_NOEXS => Ok(TaskState::Absent.number()),
            _ => Err(pair.difference("tsk_sts", answer, id)),
        }
    };
    (1..=pair.plain.counts().tasks).map(&mut state).collect()
}

/// By the binding: in order and by id.
fn bound(kernel: &State) -> Option<Vec<u32>> {
    let states = kernel.states().ok()?;
    let beyond = states.len() as u32 + 1;
    let in_order = states.iter().map(|(id, state)| (id, Some(state)));
    let same = in_order.eq((1..beyond).map(|id| (id, states.of(id))));
    let nobody = [0, beyond, u32::MAX].map(|id| states.of(id));
    let numbers = states.iter().map(|(_, state)| state.number()).collect();
    (same && nobody == [None; 3]).then_some(numbers)
}

impl Pair {
    /// Both kernels have the same states.
    pub fn same_states(&self) -> Result<Vec<u32>, String> {
        let (ours, plains) = (told(&self.kernel), plains(self));
        if ours != listed(&plains) {
            return Err(self.difference("states", ours, plains));
        }
        Ok(plains)
    }
}

/// A damaged memory shows the code, no task, and the places as they were.
pub fn shows_damage(kernel: &State, damage: i32) -> bool {
    let shown = Shown {
        code: damage,
        tasks: 0,
    };
    told(kernel) == (shown, [LEFT; TASKS]) && kernel.states() == Err(Code::of(damage))
}

/// How often each state was seen.
type Seen = [u64; figures::STATES];

fn run(seen: &mut Seen, random: &mut Random, size: Size) -> Result<(), String> {
    let mut pair = Pair::fresh(&script::setup(random, size))?;
    let mut author = Author::default();
    for _ in 0..EVENTS {
        let event = author.event(random, &pair.plain);
        pair.event(event)?;
        let states = pair.same_states()?;
        let (calls, binding) = (by_calls(&pair)?, bound(&pair.kernel));
        if calls != states || binding.as_ref() != Some(&states) {
            return Err(pair.difference("states", (calls, binding), states));
        }
        for state in states {
            seen[state as usize] += 1;
        }
    }
    Ok(())
}

pub fn check() -> Verdict {
    let mut seen = Seen::default();
    for seed in 0..RUNS {
        let size = SIZES[seed as usize % SIZES.len()];
        run(&mut seen, &mut Random::new(u64::from(seed)), size)
            .map_err(|d| format!("seed {seed}: {d}"))?;
    }
    let named = TaskState::ALL.iter().zip(seen);
    if let Some((state, _)) = named.clone().find(|(_, times)| *times == 0) {
        return Err(format!("no task was ever {state}"));
    }
    let lines: String = named
        .map(|(state, times)| format!("  {times:8} times {state}\n"))
        .collect();
    Ok(format!(
        "{RUNS} runs, {} events, every task after each\n{lines}",
        RUNS * EVENTS
    ))
}
