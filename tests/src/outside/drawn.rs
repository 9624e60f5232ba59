//! Every sound state has an accepted form: random sound states are drawn into memory, with random words wherever a word is no part of
//! them, and both kernels go on from there.
use crate::pair::Pair;
use crate::Verdict;
use second::layout;
use second::plain::{Event, Plain};
use second::random::Random;
use second::script::{self, Author, SIZES};
use second::sketch;

const STATES: u64 = 30_000;
const EVENTS: u32 = 20;

/// Whether the clock went round.
fn go_on(random: &mut Random, mut pair: Pair) -> Result<bool, String> {
    let begun = pair.plain.picture().clock;
    let mut author = Author::default();
    for _ in 0..EVENTS {
        let event = author.event(random, &pair.plain);
        pair.event(event)?;
        pair.event(Event::Tick)?;
    }
    for id in 1..=pair.plain.counts().tasks {
        pair.same_cell(id as i32)?;
    }
    pair.same_picture()?;
    Ok(pair.plain.picture().clock < begun)
}

fn state(seed: u64) -> Result<bool, String> {
    let random = &mut Random::new(seed);
    let size = SIZES[seed as usize % SIZES.len()];
    let setup = script::setup(random, size);
    let picture = sketch::picture(random, &setup);
    picture
        .sound()
        .map_err(|rule| format!("the sketch breaks a rule, {rule}: {picture:?}"))?;
    let drawn = layout::drawn(&picture, || random.word());
    let pair = Pair::of(drawn, Plain::standing(&picture));
    pair.same_picture()?;
    pair.same_running()?;
    go_on(random, pair)
}

pub fn check() -> Verdict {
    let mut round = 0;
    for seed in 0..STATES {
        round += u32::from(state(seed).map_err(|d| format!("seed {seed}: {d}"))?);
    }
    if round == 0 {
        return Err("no clock went round".to_string());
    }
    let events = STATES * u64::from(2 * EVENTS);
    Ok(format!(
        "{STATES} sound states, {events} events from them; the clock went round {round} times"
    ))
}
