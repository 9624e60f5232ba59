//! What request K2 says of handlers, each by itself: which depths and interrupted tasks are sound, what an entry and a return answer, and that
//! a tick outside handlers is an entry, a tick and a return.
use crate::damage::{answers_damage, answers_sound};
use crate::pair::{serve, Pair};
use crate::Verdict;
use okrozumba::{code, Answer, State};
use second::layout;
use second::picture::Breach;
use second::plain::{Event, DEPTH_MOST};
use second::random::Random;
use second::script::{self, SIZES};
use second::setup::Setup;
use second::sketch;

const DEPTHS: [u32; 10] = [0, 1, 2, 8, 14, 15, 16, 17, 1 << 31, u32::MAX];
/// The tasks that there are, none, and ids of nobody.
const IDS: [u32; 12] = [0, 1, 2, 3, 4, 5, 6, 7, 32, 33, 1 << 31, u32::MAX];
const TICKED: u64 = 20_000;

const fn call(context: i32, number: i32, a: i32) -> Event {
    Event::Call {
        context,
        number,
        a,
        b: 0,
        c: 0,
    }
}

// ---- depths and interrupted tasks

/// wai_sem(1) and slp_tsk, then sus_tsk(2) and sus_tsk(4): task 1 waits, 2 waits and is suspended, 3 runs, 4 is suspended, 5 is ready, and 6
/// was never started.
const EVENTS: [Event; 4] = [call(0, 14, 1), call(0, 9, 0), call(0, 7, 2), call(0, 7, 4)];
const RUNS: u32 = 3;
const INTERRUPTIBLE: [u32; 4] = [0, RUNS, 4, 5];

fn one_of_each() -> Result<State, String> {
    let setup = Setup {
        priorities: 1,
        tasks: (1..=6).map(|id| (1, id < 6)).collect(),
        semaphores: vec![0],
        flags: Vec::new(),
        mailboxes: 0,
        messages: 0,
        pools: Vec::new(),
        counter: None,
    };
    let mut pair = Pair::fresh(&setup)?;
    for event in EVENTS {
        pair.event(event)?;
    }
    Ok(pair.kernel)
}

fn sound(depth: u32, interrupted: u32) -> bool {
    depth == 0 || depth <= DEPTH_MOST && INTERRUPTIBLE.contains(&interrupted)
}

/// tsk_sts of each task, get_tid, rot_rdq(0) and slp_tsk, in both contexts and in none, and all that is no call.
fn events() -> Vec<Event> {
    let calls = (0..=2).flat_map(|context| {
        let states = (1..=6).map(move |task| call(context, 27, task));
        states.chain([
            call(context, 26, 0),
            call(context, 5, 0),
            call(context, 9, 0),
        ])
    });
    let others = [Event::Tick, Event::Enter, Event::Leave];
    calls.chain(others).collect()
}

fn only(code: i32, running: u32) -> Answer {
    Answer {
        code,
        running,
        ..Answer::default()
    }
}

/// What an entry and a return answer, and that they leave the memory if they refuse.
fn enters_and_leaves(state: &State, depth: u32, interrupted: u32) -> Result<(), String> {
    let reported = if depth == 0 { RUNS } else { interrupted };
    let entry = match depth {
        DEPTH_MOST => only(code::H_NEST, reported),
        _ => only(0, reported),
    };
    let back = match depth {
        0 => only(code::E_CTX, reported),
        1 => only(0, RUNS),
        _ => only(0, reported),
    };
    for (event, wanted) in [(Event::Enter, entry), (Event::Leave, back)] {
        let mut kernel = state.clone();
        let got = serve(&mut kernel, event);
        if got != wanted || (got.code < 0) != (kernel == *state) {
            return Err(format!("{event:?}: {got:?}, the request {wanted:?}"));
        }
    }
    if state.running() != reported {
        return Err(format!("{} runs, not {reported}", state.running()));
    }
    Ok(())
}

/// Every depth with every interrupted task; gives how many are sound and how many damaged.
fn depths() -> Result<[u32; 2], String> {
    let base = one_of_each()?;
    let events = events();
    let (mut accepted, mut refused) = (0, 0);
    for (depth, task) in DEPTHS
        .iter()
        .flat_map(|depth| IDS.map(|task| (*depth, task)))
    {
        let named = |d: String| format!("depth {depth}, interrupted task {task}: {d}");
        let state = layout::with_handling(&base, depth, task);
        if sound(depth, task) {
            let picture = layout::shown(&state).map_err(|rule| named(rule.to_string()))?;
            answers_sound(&state, &picture, &events).map_err(named)?;
            enters_and_leaves(&state, depth, task).map_err(named)?;
            accepted += 1;
        } else {
            answers_damage(&state, Breach::number("handlers"), &events).map_err(named)?;
            refused += 1;
        }
    }
    Ok([accepted, refused])
}

// ---- ticks

/// A tick outside handlers beside entry, tick and return: the same answer, the running task read at the return, and the same state. Gives
/// whether the tick switched tasks.
fn ticks_alike(state: &State) -> Result<bool, String> {
    let (mut one, mut three) = (state.clone(), state.clone());
    let tick = one.tick();
    let parts = [three.enter(), three.tick(), three.leave()];
    let wanted = Answer {
        running: parts[2].running,
        ..parts[1]
    };
    if tick != wanted || tick.code != 0 || layout::shown(&one) != layout::shown(&three) {
        return Err(format!("a tick {tick:?}, entry, tick and return {parts:?}"));
    }
    Ok(parts[0].running != tick.running)
}

/// From sound states with no handler open and any word in the interrupted task's place; gives how many ticks switched tasks.
fn ticks() -> Result<u32, String> {
    let mut switched = 0;
    for seed in 0..TICKED {
        let random = &mut Random::new(90_000 + seed);
        let setup = script::setup(random, SIZES[seed as usize % SIZES.len()]);
        let picture = sketch::picture(random, &setup);
        let drawn = layout::drawn(&picture, || random.word());
        let state = layout::with_handling(&drawn, 0, random.word());
        switched += u32::from(ticks_alike(&state).map_err(|d| format!("seed {seed}: {d}"))?);
    }
    Ok(switched)
}

pub fn check() -> Verdict {
    let [accepted, refused] = depths()?;
    let switched = ticks()?;
    if switched == 0 {
        return Err("no tick switched tasks".to_string());
    }
    Ok(format!(
        "{accepted} pairs of depth and interrupted task accepted, {refused} refused; {TICKED} ticks as entry, tick and return, {switched} of them to another task"
    ))
}
