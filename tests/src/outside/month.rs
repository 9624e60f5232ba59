//! The programs `figures` and `month`, as a user runs them: 64 random runs, whole and cut, against the second kernel's own counts.
use crate::Verdict;
use second::figures::{self, Figures};
use second::random::Random;
use second::recording::Recording;
use second::script::SIZES;
use std::fs::{self, File};
use std::path::PathBuf;
use std::process::{Command, Output};

const FIGURES: &str = concat!(env!("CARGO_MANIFEST_DIR"), "/../crates/figures/out/figures");
const MONTH: &str = concat!(env!("CARGO_MANIFEST_DIR"), "/../crates/month/out/month");
const FOLDER: &str = concat!(env!("CARGO_MANIFEST_DIR"), "/../target/outside/month");

const RUNS: usize = 64;
const EVENTS_MOST: u32 = 1500;
const EVENT: usize = 20;

fn said(e: std::io::Error) -> String {
    format!("{e}; `rt run` in crates/figures and in crates/month makes the programs")
}

fn month(files: &[PathBuf]) -> Result<Output, String> {
    Command::new(MONTH).args(files).output().map_err(said)
}

fn figures(file: &PathBuf) -> Result<String, String> {
    let input = File::open(file).map_err(said)?;
    let output = Command::new(FIGURES).stdin(input).output().map_err(said)?;
    String::from_utf8(output.stdout).map_err(|e| e.to_string())
}

fn expect(what: &str, got: &str, expected: &str) -> Result<(), String> {
    if got == expected {
        Ok(())
    } else {
        Err(format!("{what}: got\n{got}expected\n{expected}"))
    }
}

pub fn check() -> Verdict {
    fs::create_dir_all(FOLDER).map_err(said)?;
    let mut random = Random::new(12);
    let (mut files, mut runs) = (Vec::new(), Vec::new());
    let (mut events, mut cut) = (0, 0);
    for i in 0..RUNS {
        let many = random.below(EVENTS_MOST) as usize;
        let run = Recording::drawn(&mut random, SIZES[i % SIZES.len()], many);
        let mut bytes = run.bytes();
        let mut whole = many;
        // every fourth file ends early: the whole events before that count
        if i % 4 == 3 && many > 0 {
            let lost = 1 + random.below((many * EVENT) as u32 - 1) as usize;
            bytes.truncate(bytes.len() - lost);
            whole = many - lost.div_ceil(EVENT);
            cut += 1;
        }
        let path = PathBuf::from(format!("{FOLDER}/{i}.run"));
        fs::write(&path, bytes).map_err(said)?;
        let seen = Figures::of(&run, whole);
        expect(&format!("{path:?}"), &figures(&path)?, &seen.line())?;
        events += seen.events;
        files.push(path);
        runs.push(seen);
    }
    let output = month(&files)?;
    expect(
        "month",
        &String::from_utf8_lossy(&output.stdout),
        &figures::report(&runs),
    )?;
    let done = String::from_utf8_lossy(&output.stderr).lines().count();
    if done != RUNS {
        return Err(format!("month: {done} lines of files that are done"));
    }
    // a refused setup is a record of zeros; no file at all is a month of zeros
    let empty = PathBuf::from(format!("{FOLDER}/empty.run"));
    fs::write(&empty, []).map_err(said)?;
    expect("an empty run", &figures(&empty)?, &Figures::none().line())?;
    expect(
        "no run",
        &String::from_utf8_lossy(&month(&[])?.stdout),
        &figures::report(&[]),
    )?;
    // more records than a month has; a file that is not there
    let mut many = files.clone();
    many.push(empty);
    expect(
        "65 runs",
        &String::from_utf8_lossy(&month(&many)?.stdout),
        "T1\n",
    )?;
    let missing = PathBuf::from(format!("{FOLDER}/missing.run"));
    let output = month(&[files[0].clone(), missing])?;
    expect(
        "a missing run",
        &String::from_utf8_lossy(&output.stdout),
        "",
    )?;
    if !String::from_utf8_lossy(&output.stderr).contains("missing.run") {
        return Err("month does not name the missing run".into());
    }
    Ok(format!("{RUNS} runs, {cut} of them cut, {events} events"))
}
