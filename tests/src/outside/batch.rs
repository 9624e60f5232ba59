//! Many events at once against one after the other: every cut of a run in two, some cuts in many, and what is refused.
use crate::pair::serve;
use crate::Verdict;
use okrozumba::{Answer, Refusal, State, Unfit, ANSWER_WORDS, EVENT_WORDS};
use second::plain::Event;
use second::random::Random;
use second::recording::{self, Five, Recording};
use second::script::SIZES;
use second::setup;

const RUNS: u64 = 240;
const EVENTS: usize = 90;
const CUTS: u32 = 60;
/// Places behind those that are needed.
const SPARE: usize = 9;
const CODE_SENTINEL: i32 = 777;
const WORD_SENTINEL: u32 = 0xabad_cafe;

/// A run: its setup, its events as words, the answers and the last state of one event after the other.
struct Run {
    bytes: Vec<u8>,
    words: Vec<i32>,
    fresh: State,
    answers: Vec<Answer>,
    last: State,
    /// How many events leave a handler open.
    open: u32,
}

fn handlers_open(events: &[Five], answers: &[Answer]) -> u32 {
    let (mut depth, mut open) = (0, 0);
    for (five, answer) in events.iter().zip(answers) {
        match recording::event(*five) {
            Event::Enter if answer.code == 0 => depth += 1,
            Event::Leave if answer.code == 0 => depth -= 1,
            _ => {}
        }
        open += u32::from(depth > 0);
    }
    open
}

fn record(seed: u64) -> Result<Run, String> {
    let size = SIZES[seed as usize % SIZES.len()];
    let drawn = Recording::drawn(&mut Random::new(7000 + seed), size, EVENTS);
    let bytes = setup::bytes(&drawn.setup);
    let fresh = State::start(&bytes).map_err(|bad| format!("{:?}: {bad:?}", drawn.setup))?;
    let mut last = fresh.clone();
    let events = drawn.events.iter();
    let answers: Vec<Answer> = events
        .map(|five| serve(&mut last, recording::event(*five)))
        .collect();
    Ok(Run {
        bytes,
        open: handlers_open(&drawn.events, &answers),
        answers,
        words: drawn.events.concat(),
        fresh,
        last,
    })
}

/// Places for so many answers and some more.
struct Places {
    codes: Vec<i32>,
    words: Vec<u32>,
}

impl Places {
    fn new(events: usize) -> Places {
        Places {
            codes: vec![CODE_SENTINEL; events + SPARE],
            words: vec![WORD_SENTINEL; ANSWER_WORDS * events + SPARE],
        }
    }

    /// Exactly these answers, and the rest as it was.
    fn hold(&self, answers: &[Answer]) -> bool {
        let mut expected = Places::new(answers.len());
        for (i, answer) in answers.iter().enumerate() {
            expected.codes[i] = answer.code;
            let four = [answer.w1, answer.w2, answer.running, answer.released];
            expected.words[ANSWER_WORDS * i..][..ANSWER_WORDS].copy_from_slice(&four);
        }
        self.codes == expected.codes && self.words == expected.words
    }
}

impl Run {
    /// Plays the events from one to another.
    fn part(&self, kernel: &mut State, from: usize, to: usize) -> Result<(), String> {
        let mut places = Places::new(to - from);
        let words = &self.words[EVENT_WORDS * from..EVENT_WORDS * to];
        let done = kernel.events(words, &mut places.codes, &mut places.words);
        if done.is_ok() && places.hold(&self.answers[from..to]) {
            Ok(())
        } else {
            Err(format!(
                "events {from} to {to} of {:?} on {:?}: {done:?}",
                self.words, self.bytes
            ))
        }
    }

    /// Plays it all, cut before each of these events.
    fn cut(&self, cuts: &[usize]) -> Result<(), String> {
        let mut kernel = self.fresh.clone();
        let mut from = 0;
        for to in cuts.iter().copied().chain([self.answers.len()]) {
            self.part(&mut kernel, from, to)?;
            from = to;
        }
        if kernel == self.last {
            Ok(())
        } else {
            Err(format!(
                "cut at {cuts:?}: another state after {:?} on {:?}",
                self.words, self.bytes
            ))
        }
    }

    /// A start and all events in one, on memory that held something else.
    fn whole(&self) -> Result<(), String> {
        let mut kernel = State::of([1; okrozumba::STATE_WORDS], [9; okrozumba::MESSAGES]);
        let mut places = Places::new(self.answers.len());
        let ran = kernel.run(
            &self.bytes,
            &self.words,
            &mut places.codes,
            &mut places.words,
        );
        if ran.is_ok() && places.hold(&self.answers) && kernel == self.last {
            Ok(())
        } else {
            Err(format!(
                "run of {:?} on {:?}: {ran:?}",
                self.words, self.bytes
            ))
        }
    }

    /// What `events` and `run` refuse, with numbers of words and places; nothing is written.
    fn unfit(&self, words: usize, codes: usize, answers: usize) -> Result<(), String> {
        let expected = fit(words, codes, answers);
        let mut kernel = self.last.clone();
        let mut places = Places {
            codes: vec![CODE_SENTINEL; codes],
            words: vec![WORD_SENTINEL; answers],
        };
        let events = &self.words[..words];
        let by_events = kernel.events(events, &mut places.codes, &mut places.words);
        let by_run = kernel.run(&self.bytes, events, &mut places.codes, &mut places.words);
        // the setup is looked at later
        let by_bad_run = kernel.run(&[], events, &mut places.codes, &mut places.words);
        let expected_run = expected.map_err(Refusal::Events);
        let untouched = kernel == self.last
            && places.codes.iter().all(|code| *code == CODE_SENTINEL)
            && places.words.iter().all(|word| *word == WORD_SENTINEL);
        if expected.is_err()
            && by_events == expected
            && by_run == expected_run
            && by_bad_run == expected_run
            && untouched
        {
            Ok(())
        } else {
            Err(format!("{words} words, {codes} codes, {answers} answer words: {by_events:?}, {by_run:?}, {by_bad_run:?}"))
        }
    }
}

fn fit(words: usize, codes: usize, answers: usize) -> Result<(), Unfit> {
    let events = words / EVENT_WORDS;
    if !words.is_multiple_of(EVENT_WORDS) {
        Err(Unfit::Ragged)
    } else if codes < events {
        Err(Unfit::FewCodes)
    } else if answers < ANSWER_WORDS * events {
        Err(Unfit::FewWords)
    } else {
        Ok(())
    }
}

/// All sizes near the edge that don't fit.
fn refusals(run: &Run) -> Result<u32, String> {
    let mut refused = 0;
    for words in 0..=4 * EVENT_WORDS {
        for codes in 0..=6 {
            for answers in 0..=22 {
                if fit(words, codes, answers).is_err() {
                    run.unfit(words, codes, answers)?;
                    refused += 1;
                }
            }
        }
    }
    Ok(refused)
}

fn random_cuts(random: &mut Random) -> Vec<usize> {
    let many = random.within(2, 40);
    let mut cuts: Vec<usize> = (0..many)
        .map(|_| random.below(EVENTS as u32 + 1) as usize)
        .collect();
    cuts.sort();
    cuts
}

pub fn check() -> Verdict {
    let (mut cuts, mut refused, mut open) = (0, 0, 0);
    for seed in 0..RUNS {
        let run = record(seed)?;
        run.whole()?;
        for at in 0..=EVENTS {
            run.cut(&[at])?;
        }
        let random = &mut Random::new(seed);
        for _ in 0..CUTS {
            run.cut(&random_cuts(random))?;
        }
        cuts += EVENTS as u32 + 1 + CUTS;
        open += run.open;
        if seed < 4 {
            refused += refusals(&run)?;
        }
    }
    if open == 0 {
        return Err("no batch was cut in a handler".to_string());
    }
    Ok(format!(
        "{RUNS} runs of {EVENTS} events, cut in {cuts} ways, {open} times in a handler; {refused} batches refused"
    ))
}
