//! Setups with a fault: the same fault at the same place as the second reader finds, and not a byte written. Setups without one: the fresh
//! state, whatever the memory held.
use crate::pair::Pair;
use crate::Verdict;
use okrozumba::{BadSetup, Fault, Refusal, State, MESSAGES, STATE_WORDS};
use second::random::Random;
use second::script::{self, SIZES};
use second::setup::{self, Setup};

const SETUPS: u64 = 60;
const NOISE: u32 = 20_000;

#[derive(Default)]
struct Tally {
    /// Refused with S1 to S4.
    faults: [u64; 4],
    accepted: u64,
}

fn number(fault: Fault) -> u32 {
    match fault {
        Fault::S1 => 1,
        Fault::S2 => 2,
        Fault::S3 => 3,
        Fault::S4 => 4,
    }
}

fn told(bad: BadSetup) -> setup::Fault {
    (number(bad.fault), bad.place)
}

/// Memory and places for answers that hold something else than a state.
struct Lent {
    state: State,
    codes: [i32; 4],
    answers: [u32; 16],
}

const SENTINEL: u32 = 0xabad_cafe;
/// Entry, get_tim, return.
const GET_TIM: [i32; 15] = [3, 0, 0, 0, 0, 1, 32, 0, 0, 0, 4, 0, 0, 0, 0];

impl Lent {
    fn new() -> Lent {
        let state = State::of([SENTINEL; STATE_WORDS], [SENTINEL; MESSAGES]);
        Lent {
            state,
            codes: [7; 4],
            answers: [SENTINEL; 16],
        }
    }

    fn untouched(&self) -> bool {
        let fresh = Lent::new();
        self.state == fresh.state && self.codes == fresh.codes && self.answers == fresh.answers
    }

    fn start(&mut self, bytes: &[u8]) -> Result<(), setup::Fault> {
        self.state.restart(bytes).map_err(told)
    }

    fn run(&mut self, bytes: &[u8]) -> Result<(), setup::Fault> {
        let ran = self
            .state
            .run(bytes, &GET_TIM, &mut self.codes, &mut self.answers);
        ran.map_err(|refusal| match refusal {
            Refusal::Setup(bad) => told(bad),
            Refusal::Events(unfit) => panic!("three events and room for four: {unfit:?}"),
        })
    }
}

/// The events of `run` were get_tim from a handler: the clock is 0.
fn ran_once(lent: &Lent, running: u32) -> bool {
    let (ran, rest) = lent.answers.split_at(12);
    lent.codes == [0, 0, 0, 7]
        && ran == [0, 0, running, 0].repeat(3)
        && rest.iter().all(|word| *word == SENTINEL)
}

impl Tally {
    fn judge(&mut self, bytes: &[u8]) -> Result<(), String> {
        let (mut started, mut ran) = (Lent::new(), Lent::new());
        let expected = setup::read(bytes);
        let fault = expected.as_ref().err().copied();
        let (by_start, by_run) = (started.start(bytes).err(), ran.run(bytes).err());
        if (by_start, by_run) != (fault, fault) {
            return Err(format!(
                "{bytes:?}: start {by_start:?}, run {by_run:?}, second reader {fault:?}"
            ));
        }
        match expected {
            Ok(setup) => self.accept(&setup, &started, &ran),
            Err((fault, _)) => {
                self.faults[fault as usize - 1] += 1;
                if started.untouched() && ran.untouched() {
                    Ok(())
                } else {
                    Err(format!("{bytes:?}: refused, but something was written"))
                }
            }
        }
    }

    fn accept(&mut self, setup: &Setup, started: &Lent, ran: &Lent) -> Result<(), String> {
        self.accepted += 1;
        for lent in [started, ran] {
            let pair = Pair::of(lent.state.clone(), second::plain::Plain::fresh(setup));
            pair.same_picture()?;
            pair.same_running()?;
        }
        if ran_once(ran, started.state.running()) {
            Ok(())
        } else {
            Err(format!(
                "{setup:?}: run answered {:?} {:?}",
                ran.codes, ran.answers
            ))
        }
    }

    fn truncations(&mut self, bytes: &[u8]) -> Result<(), String> {
        (0..=bytes.len()).try_for_each(|end| self.judge(&bytes[..end]))
    }

    fn left_over(&mut self, bytes: &[u8]) -> Result<(), String> {
        let mut longer = bytes.to_vec();
        for byte in [0, 1, 0, 255, 0, 0, 0, 0, 7] {
            longer.push(byte);
            self.judge(&longer)?;
        }
        Ok(())
    }

    /// A setup alone may end after seven sections, and has no counter then.
    fn seven_sections(&mut self, setup: &Setup) -> Result<(), String> {
        let bare = Setup {
            counter: None,
            ..setup.clone()
        };
        let bytes = setup::bytes(&bare);
        self.truncations(&bytes)?;
        self.left_over(&bytes[..bytes.len() - 4])
    }

    /// Each word one below and one above its range, at its ends, and far outside.
    fn ranges(&mut self, setup: &Setup) -> Result<(), String> {
        let ranged = setup::ranged_words(setup);
        for (at, (_, low, high)) in ranged.iter().enumerate() {
            let mut words: Vec<u32> = ranged.iter().map(|(word, _, _)| *word).collect();
            for word in [
                *low,
                *high,
                low.wrapping_sub(1),
                high.wrapping_add(1),
                1 << 31,
                u32::MAX,
                1 << 16,
                256,
            ] {
                words[at] = word;
                self.judge(&setup::bytes_of(words.iter().copied()))?;
            }
        }
        Ok(())
    }

    /// A few bytes changed to any others.
    fn noise(&mut self, random: &mut Random, bytes: &[u8]) -> Result<(), String> {
        let mut noisy = bytes.to_vec();
        for _ in 0..random.within(1, 3) {
            let at = random.below(bytes.len() as u32) as usize;
            noisy[at] = if random.percent(70) {
                random.below(34) as u8
            } else {
                random.word() as u8
            };
        }
        self.judge(&noisy)
    }
}

pub fn check() -> Verdict {
    let mut tally = Tally::default();
    let mut longest = 0;
    for seed in 0..SETUPS {
        let random = &mut Random::new(seed);
        let setup = script::setup(random, SIZES[seed as usize % SIZES.len()]);
        let bytes = setup::bytes(&setup);
        longest = longest.max(bytes.len());
        tally.truncations(&bytes)?;
        tally.left_over(&bytes)?;
        tally.seven_sections(&setup)?;
        tally.ranges(&setup)?;
        for _ in 0..NOISE / SETUPS as u32 {
            tally.noise(random, &bytes)?;
        }
    }
    if tally.faults.contains(&0) || longest != 516 {
        return Err(format!(
            "too little tested: {:?}, longest {longest}",
            tally.faults
        ));
    }
    let [s1, s2, s3, s4] = tally.faults;
    Ok(format!(
        "{s1} S1, {s2} S2, {s3} S3, {s4} S4, {} accepted; the longest had {longest} bytes",
        tally.accepted
    ))
}
