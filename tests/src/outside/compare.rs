//! What a changed setup changes: the text of the archive's function and of the program `compare` is the second comparison's.
use crate::Verdict;
use okrozumba::compare::{compare, Short};
use second::compare;
use second::random::Random;
use second::recording::Recording;
use second::script::{self, SIZES};
use second::setup::{self, Setup};
use std::fs;
use std::io::Write;
use std::process::{Command, Stdio};

const COMPARE: &str = concat!(env!("CARGO_MANIFEST_DIR"), "/../crates/compare/out/compare");

/// Inputs, each beside its text.
const SHIPPED: &str = concat!(env!("CARGO_MANIFEST_DIR"), "/../examples/compare");

const PAIRS: u64 = 400;
const EVENTS: u32 = 200;
/// Damaged copies of each input.
const COPIES: u32 = 8;
/// Inputs of which every truncation is tried.
const CUT: u64 = 12;
const LONG: usize = 3000;
/// Bytes of an output behind its text.
const SPARE: usize = 40;
const SENTINEL: u8 = 0xa5;

fn program(input: &[u8]) -> Result<Vec<u8>, String> {
    let said = |e: std::io::Error| format!("{COMPARE}: {e}; `rt run` in crates/compare makes it");
    let mut program = Command::new(COMPARE)
        .stdin(Stdio::piped())
        .stdout(Stdio::piped())
        .spawn()
        .map_err(said)?;
    // it reads no more than decides, so the last bytes may find nobody
    let _ = program
        .stdin
        .take()
        .expect("it was asked for")
        .write_all(input);
    Ok(program.wait_with_output().map_err(said)?.stdout)
}

/// A lent output of so many bytes holds the text and all behind it as it was, or, too short, all as it was.
fn lent(input: &[u8], text: &[u8], places: usize) -> bool {
    let mut output = vec![SENTINEL; places];
    let mut expected = output.clone();
    let told = if text.len() <= places {
        expected[..text.len()].copy_from_slice(text);
        Ok(text.len())
    } else {
        Err(Short { needed: text.len() })
    };
    compare(input, &mut output) == told && output == expected
}

#[derive(Default)]
struct Tally {
    inputs: u64,
    refused: u64,
    events: u64,
    changes: u64,
    by_program: u64,
    longest: usize,
}

impl Tally {
    fn hold(&mut self, input: &[u8], by_program: bool) -> Result<String, String> {
        let text = compare::text(input);
        let bytes = text.as_bytes();
        let room = bytes.len() + SPARE;
        for places in [0, bytes.len() - 1, bytes.len(), room] {
            if !lent(input, bytes, places) {
                return Err(format!("{places} bytes of room, not\n{text}for {input:?}"));
            }
        }
        if by_program {
            self.by_program += 1;
            let written = program(input)?;
            if written != bytes {
                let written = String::from_utf8_lossy(&written);
                return Err(format!(
                    "{COMPARE} wrote\n{written}not\n{text}for {input:?}"
                ));
            }
        }
        self.inputs += 1;
        self.refused += u64::from(text.starts_with("refused"));
        self.changes += (text.lines().count() as u64 - 1) / 2;
        self.longest = self.longest.max(bytes.len());
        Ok(text)
    }
}

/// A setup with one number of another changed, where that leaves it a setup; or one of its own.
fn changed(random: &mut Random, old: &Setup) -> Setup {
    let mut new = old.clone();
    let task = random.below(old.tasks.len() as u32) as usize;
    match random.below(6) {
        0..=2 => new.tasks[task].0 = random.within(1, old.priorities),
        3 => new.tasks[task].1 = !old.tasks[task].1,
        4 if !old.semaphores.is_empty() => new.semaphores[0] = random.below(3),
        _ => {
            let size = random.pick(&SIZES);
            new = script::setup(random, size);
        }
    }
    new
}

fn joined(first: &Setup, second: &[u8]) -> Vec<u8> {
    let mut input = setup::bytes(first);
    input.extend(second);
    input
}

fn damaged(random: &mut Random, input: &[u8]) -> Vec<u8> {
    let mut copy = input.to_vec();
    // most faults lie in the setups and the count
    let most = copy.len().min(600) as u32;
    match random.below(4) {
        0 => copy.truncate(random.below(copy.len() as u32 + 1) as usize),
        1 => copy.extend((0..=random.below(3)).map(|_| random.word() as u8)),
        _ => {
            let at = random.below(most / 4) as usize * 4;
            let word = random.pick(&[0, 1, 2, 16, 17, 33, 257, 3000, 3001, u32::MAX]);
            copy[at..at + 4].copy_from_slice(&word.to_le_bytes());
        }
    }
    copy
}

/// The inputs under examples/ have the texts beside them.
fn shipped(tally: &mut Tally) -> Result<u64, String> {
    let said = |e: std::io::Error| format!("{SHIPPED}: {e}");
    let mut many = 0;
    for entry in fs::read_dir(SHIPPED).map_err(said)? {
        let path = entry.map_err(said)?.path();
        if path.extension().is_some_and(|end| end == "run") {
            let text = fs::read_to_string(path.with_extension("txt")).map_err(said)?;
            if tally.hold(&fs::read(&path).map_err(said)?, true)? != text {
                return Err(format!("{path:?} has another text"));
            }
            many += 1;
        }
    }
    Ok(many)
}

pub fn check() -> Verdict {
    let mut tally = Tally::default();
    let shipped = shipped(&mut tally)?;
    let mut random = Random::new(13);
    for i in 0..PAIRS {
        let many = random.below(EVENTS) as usize;
        let run = Recording::drawn(&mut random, SIZES[i as usize % SIZES.len()], many);
        let first = changed(&mut random, &run.setup);
        // the run is drawn for the second setup, or for the first
        let (first, bytes) = if random.percent(50) {
            (first, run.bytes())
        } else {
            let old = run.setup.clone();
            (
                old,
                Recording {
                    setup: first,
                    events: run.events.clone(),
                }
                .bytes(),
            )
        };
        let input = joined(&first, &bytes);
        tally.hold(&input, i % 8 == 0)?;
        tally.events += many as u64;
        for _ in 0..COPIES {
            let copy = damaged(&mut random, &input);
            tally.hold(&copy, false)?;
        }
        if i < CUT {
            for end in 0..input.len() {
                tally.hold(&input[..end], false)?;
            }
        }
        // equal setups
        let text = tally.hold(&joined(&run.setup, &run.bytes()), false)?;
        if text != "0\n" {
            return Err(format!("equal setups: {text}"));
        }
    }
    // the most events, one too many, and far more bytes than any input has
    for many in [LONG, LONG + 1] {
        let run = Recording::drawn(&mut random, SIZES[2], many);
        let other = script::setup(&mut random, SIZES[2]);
        let mut input = joined(&other, &run.bytes());
        tally.hold(&input, true)?;
        input.resize(200_000, 7);
        tally.hold(&input, true)?;
    }
    let Tally {
        inputs,
        refused,
        events,
        changes,
        by_program,
        longest,
    } = tally;
    Ok(format!(
        "{inputs} inputs, {shipped} of them shipped, {refused} refused, {events} events, {changes} changes listed, {by_program} by the program, the longest text {longest} bytes"
    ))
}
