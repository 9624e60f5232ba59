//! Recorded runs, whole and damaged: the text that the archive writes, and the program's, is the second player's.
use crate::program;
use crate::Verdict;
use okrozumba::playback::{play, Short};
use second::cases;
use second::random::Random;
use second::recording::{self, Recording};
use second::script::{Size, SIZES};
use second::setup;
use std::fs;
use std::path::{Path, PathBuf};

const FILES: u64 = 500;
/// Damaged copies of each.
const COPIES: u32 = 24;
const LONG: usize = 3000;
const EVENTS_MOST: u32 = 1_000_000;
/// Ends of a long file that are tried.
const ENDS: u32 = 300;
/// Bytes of an output behind its text.
const SPARE: usize = 40;
const SENTINEL: u8 = 0xa5;

/// The request's own example, with no counter: the bench sheet's setup, sta_tsk(3) and slp_tsk.
const SHEET: [u32; 28] = [
    4, 3, 2, 1, 2, 1, 1, 0, 1, 0, 1, 0, 1, 2, 1, 2, 0, 2, 0, 1, 3, 0, 0, 0, 9, 0, 0, 0,
];
const SHEET_TEXT: &str = "start 1\n1 0 0 0 3 0\n2 1 0 0 1 0\n";

/// The same setup; then return, entry, sta_tsk(3) from the handler, task context, another kind, a second entry, two returns. Words that
/// don't count are -1.
const HANDLERS: [[i32; 5]; 8] = [
    [4, -1, -1, -1, -1],
    [3, -1, -1, -1, -1],
    [1, 1, 3, -1, -1],
    [0, 26, -1, -1, -1],
    [5, 26, -1, -1, -1],
    [3, -1, -1, -1, -1],
    [4, -1, -1, -1, -1],
    [4, -1, -1, -1, -1],
];
const HANDLERS_TEXT: &str = "start 1\n1 -2629 0 0 1 0\n2 0 0 0 1 0\n3 0 0 0 1 0\n4 -2629 0 0 1 0\n5 -1 0 0 1 0\n6 0 0 0 1 0\n7 0 0 0 1 0\n8 0 0 0 3 0\n";

#[derive(Default)]
struct Tally {
    /// Files that ran to their end, and all lines but refusals.
    ran: u64,
    lines: u64,
    /// Refused with S1 to S4, and how many of them behind other lines.
    faults: [u64; 4],
    later: u64,
    by_program: u64,
    shipped: u64,
    longest_text: usize,
}

/// What a lent output of so many bytes holds after the text was written: the text and all behind it as it was, or, too short, all as it was.
fn lent(file: &[u8], text: &[u8], places: usize) -> bool {
    let mut output = vec![SENTINEL; places];
    let mut expected = output.clone();
    let fits = text.len() <= places;
    if fits {
        expected[..text.len()].copy_from_slice(text);
    }
    let told = if fits {
        Ok(text.len())
    } else {
        Err(Short { needed: text.len() })
    };
    play(file, &mut output) == told && output == expected
}

impl Tally {
    fn count(&mut self, text: &str) {
        let mut lines: Vec<&str> = text.lines().collect();
        let last = lines.last().and_then(|line| line.strip_prefix("refused "));
        if let Some(rest) = last {
            self.faults[rest.as_bytes()[0] as usize - usize::from(b'1')] += 1;
            lines.pop();
            self.later += u64::from(!lines.is_empty());
        } else {
            self.ran += 1;
        }
        self.lines += lines.len() as u64;
        self.longest_text = self.longest_text.max(text.len());
    }

    /// The archive, with more places than are needed, with just enough, with one too few and with none.
    fn judge(&mut self, file: &[u8]) -> Result<(), String> {
        let text = recording::text(file);
        let long = text.len();
        self.count(&text);
        for places in [long + SPARE, long, long - 1, 0] {
            if !lent(file, text.as_bytes(), places) {
                let named = format!("{file:?}, {places} bytes of output");
                return Err(format!("{named}\nthe second player's text:\n{text}"));
            }
        }
        Ok(())
    }

    /// The program, fed in pieces of so many bytes.
    fn run_program(&mut self, file: &[u8], piece: usize) -> Result<(), String> {
        let text = recording::text(file);
        let written = program::play(file, piece)?;
        self.by_program += 1;
        if written == text.as_bytes() {
            Ok(())
        } else {
            let named = String::from_utf8_lossy(&written);
            Err(format!("{file:?}: the program wrote\n{named}\nnot\n{text}"))
        }
    }

    fn truncations(&mut self, file: &[u8]) -> Result<(), String> {
        (0..=file.len()).try_for_each(|end| self.judge(&file[..end]))
    }
}

/// A few bytes changed to any others, some cut off or added.
pub fn damaged(random: &mut Random, file: &[u8]) -> Vec<u8> {
    let mut file = file.to_vec();
    // the setup is short beside the events
    let front = file.len().min(200) as u32;
    match random.below(4) {
        0 => file.truncate(random.below(file.len() as u32) as usize),
        1 => file.extend((0..random.within(1, 9)).map(|_| random.word() as u8)),
        2 => {
            for _ in 0..random.within(1, 3) {
                file[random.below(front) as usize] = random.below(34) as u8;
            }
        }
        _ => {
            let at = random.below(file.len() as u32) as usize;
            file[at] = random.word() as u8;
        }
    }
    file
}

/// Mostly some dozens of events, now and then many.
fn drawn(random: &mut Random, seed: u64) -> Vec<u8> {
    let many = match seed % 50 {
        0 => 0,
        1 => LONG,
        _ => random.below(200) as usize,
    };
    Recording::drawn(random, SIZES[seed as usize % SIZES.len()], many).bytes()
}

fn random_files(tally: &mut Tally) -> Result<(), String> {
    for seed in 0..FILES {
        let random = &mut Random::new(31_000 + seed);
        let file = drawn(random, seed);
        tally.judge(&file)?;
        for _ in 0..COPIES {
            tally.judge(&damaged(random, &file))?;
        }
        let copy = damaged(random, &file);
        let piece = random.within(1, 300) as usize;
        tally.run_program(&file, piece)?;
        tally.run_program(&copy, piece)?;
    }
    Ok(())
}

/// A long file: cut off anywhere; and whatever follows it, all that the program need not read too.
fn long(tally: &mut Tally) -> Result<(), String> {
    let random = &mut Random::new(9);
    let mut file = Recording::drawn(random, Size::Full, LONG).bytes();
    let long = file.len();
    for _ in 0..ENDS {
        tally.judge(&file[..random.below(long as u32) as usize])?;
    }
    for more in [1, 2, 3, 4, 5, 100, 1_000_000] {
        file.resize(long + more, 7);
        tally.judge(&file)?;
        tally.run_program(&file, 4096)?;
    }
    file.truncate(long);
    tally.run_program(&file, 1000)
}

/// As many events as there can be, and one more, by a count that is not kept; and the words of events at both ends.
fn edges(tally: &mut Tally) -> Result<(), String> {
    let mut run = Recording::drawn(&mut Random::new(10), Size::Small, 3);
    for count in [EVENTS_MOST, EVENTS_MOST + 1, 1 << 31, u32::MAX] {
        let mut file = run.bytes();
        let place = setup::bytes(&run.setup).len();
        file[place..place + 4].copy_from_slice(&count.to_le_bytes());
        tally.truncations(&file)?;
    }
    let words = [i32::MIN, -1, 0, 1, 2, 3, 4, 5, i32::MAX];
    for kinds in [0, 1, 2, 3, 4] {
        run.events = words.map(|word| [word, 26, word, word, word]).to_vec();
        run.events
            .extend(words.map(|word| [kinds, word, word, 1, 1]));
        // with no handler open at first, and with one
        tally.judge(&run.bytes())?;
        run.events.insert(0, [3, 0, 0, 0, 0]);
        tally.judge(&run.bytes())?;
    }
    Ok(())
}

/// One entry more than there can be, then one return more.
fn nested(tally: &mut Tally) -> Result<(), String> {
    let mut run = Recording::drawn(&mut Random::new(10), Size::Small, 0);
    run.events = [[3; 5]; 16].into_iter().chain([[4; 5]; 16]).collect();
    tally.judge(&run.bytes())
}

fn read(path: &Path) -> Result<Vec<u8>, String> {
    fs::read(path).map_err(|e| format!("{}: {e}", path.display()))
}

/// The runs that the repository ships.
pub fn shipped_files() -> Result<Vec<(PathBuf, Vec<u8>)>, String> {
    let folder = concat!(env!("CARGO_MANIFEST_DIR"), "/../examples/runs");
    let named = |e| format!("{folder}: {e}");
    let mut files = Vec::new();
    for entry in fs::read_dir(folder).map_err(named)? {
        let path = entry.map_err(named)?.path();
        if path.extension().is_some_and(|ending| ending == "run") {
            let file = read(&path)?;
            files.push((path, file));
        }
    }
    Ok(files)
}

/// Each of them beside its text.
fn shipped(tally: &mut Tally) -> Result<(), String> {
    for (path, file) in shipped_files()? {
        if recording::text(&file).as_bytes() != read(&path.with_extension("txt"))? {
            return Err(format!("{}: not the text beside it", path.display()));
        }
        tally.judge(&file)?;
        tally.run_program(&file, 100)?;
        tally.shipped += 1;
    }
    Ok(())
}

/// A file with its text: all of it, and cut off anywhere.
fn known(tally: &mut Tally, file: &[u8], text: &str) -> Result<(), String> {
    if recording::text(file) != text {
        return Err("the second player has another text than the request".to_string());
    }
    tally.truncations(file)?;
    (0..=file.len()).try_for_each(|end| tally.run_program(&file[..end], 7))
}

fn sheet(tally: &mut Tally) -> Result<(), String> {
    known(tally, &setup::bytes_of(SHEET), SHEET_TEXT)?;
    let setup = cases::setup()?;
    let events = HANDLERS.to_vec();
    known(tally, &Recording { setup, events }.bytes(), HANDLERS_TEXT)
}

pub fn check() -> Verdict {
    let mut tally = Tally::default();
    sheet(&mut tally)?;
    shipped(&mut tally)?;
    random_files(&mut tally)?;
    long(&mut tally)?;
    edges(&mut tally)?;
    nested(&mut tally)?;
    if tally.faults.contains(&0) || tally.later == 0 || tally.shipped == 0 {
        let counts = (tally.faults, tally.later, tally.shipped);
        return Err(format!("too little tested: {counts:?}"));
    }
    let [s1, s2, s3, s4] = tally.faults;
    Ok(format!(
        "{} files ran to their end, {} lines; {s1} S1, {s2} S2, {s3} S3, {s4} S4, {} of them behind other lines; {} files by the program, {} of them shipped; the longest text had {} bytes",
        tally.ran, tally.lines, tally.later, tally.by_program, tally.shipped, tally.longest_text
    ))
}
