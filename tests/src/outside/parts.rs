//! Runs that come in parts (request K8): however the bytes are divided and however little room there is, the recorder says and writes what the
//! second player does, and ends in the same state.
use crate::playback::{damaged, shipped_files};
use crate::program;
use crate::Verdict;
use okrozumba::recorder::{Parted, Recorder, Said, HELD, LINE, NUMBERS};
use okrozumba::{State, MESSAGES};
use second::layout;
use second::random::Random;
use second::recording::{self, Recording};
use second::script::{Size, SIZES};
use second::stream::Player;

const FILES: u64 = 600;
const EVENTS: u32 = 60;
const CONTENTS: u64 = 60_000;
const MILLION: usize = 1_000_000;
const SENTINEL: u8 = 0xa5;

// ---- recorder and player side by side

#[derive(Default)]
struct Both {
    recorder: Recorder,
    player: Player,
    text: String,
}

impl Both {
    /// Exactly the player's text stands in the output, all behind it is as it was, and the same is said.
    fn same(
        &mut self,
        before: &Recorder,
        ours: (Parted, Vec<u8>),
        theirs: (Parted, String),
    ) -> Result<Parted, String> {
        let (told, output) = ours;
        let (wanted, text) = theirs;
        let (written, rest) = output.split_at(wanted.written);
        let kept = rest.iter().all(|byte| *byte == SENTINEL);
        if told != wanted || written != text.as_bytes() || !kept {
            let named = String::from_utf8_lossy(&output);
            return Err(format!("{told:?} {named:?}, not {wanted:?} {text:?}"));
        }
        if matches!(told.said, Said::Closed | Said::Full)
            && told.taken == 0
            && *before != self.recorder
        {
            return Err(format!("{told:?}, and the recorder changed"));
        }
        self.text += &text;
        Ok(told)
    }

    fn part(&mut self, bytes: &[u8], room: usize) -> Result<Parted, String> {
        let before = self.recorder.clone();
        let mut output = vec![SENTINEL; room];
        let ours = self.recorder.part(bytes, &mut output);
        let theirs = self.player.part(bytes, room);
        if bytes.is_empty() && before != self.recorder {
            return Err("an empty part changed the recorder".to_string());
        }
        self.same(&before, (ours, output), theirs)
    }

    fn end(&mut self, room: usize) -> Result<Parted, String> {
        let before = self.recorder.clone();
        let mut output = vec![SENTINEL; room];
        let ours = self.recorder.end(&mut output);
        let theirs = self.player.end(room);
        self.same(&before, (ours, output), theirs)
    }

    /// Once the start line is written, the kernel is the run's.
    fn same_state(&self) -> Result<(), String> {
        let Some(plain) = self.player.plain() else {
            return Ok(());
        };
        match layout::shown(self.recorder.state()) {
            Ok(shown) if shown == plain.picture() => Ok(()),
            other => Err(format!("{other:?}, not {:?}", plain.picture())),
        }
    }

    /// Behind the end: nothing is taken and nothing written, but for an empty part.
    fn closed(&mut self) -> Result<(), String> {
        let told = [
            self.part(&[0], 2 * LINE)?.said,
            self.part(&[7; 40], 0)?.said,
            self.end(2 * LINE)?.said,
            self.end(0)?.said,
        ];
        let empty = self.part(&[], 0)?.said;
        if told == [Said::Closed; 4] && empty == Said::Taken {
            Ok(())
        } else {
            Err(format!("behind the end: {told:?}, {empty:?}"))
        }
    }
}

/// How often the room ran out, and what was refused.
#[derive(Default)]
struct Tally {
    divided: u64,
    full: u64,
    refused: [u64; 2],
    cuts: u64,
    contents: u64,
}

impl Tally {
    /// Feeds a file in parts and rooms of such lengths; what a part leaves is the front of the next.
    fn divide(
        &mut self,
        file: &[u8],
        random: &mut Random,
        part: fn(&mut Random) -> usize,
        room: fn(&mut Random) -> usize,
    ) -> Result<(), String> {
        let mut both = Both::default();
        let mut rest = file;
        while !rest.is_empty() {
            let many = part(random).min(rest.len());
            let told = both.part(&rest[..many], room(random))?;
            rest = &rest[told.taken..];
            self.full += u64::from(told.said == Said::Full);
            if let Said::Refused(_) = told.said {
                self.refused[0] += 1;
                // what lies behind a refusal is not taken
                let again = both.part(&[1], room(random))?.said;
                if again != Said::Closed {
                    return Err(format!("{again:?} behind a refusal"));
                }
                break;
            }
        }
        while both.end(room(random))?.said == Said::Full {
            self.full += 1;
        }
        self.refused[1] += u64::from(both.text.contains("refused 1"));
        both.same_state()?;
        both.closed()?;
        self.divided += 1;
        if both.text == recording::text(file) {
            Ok(())
        } else {
            Err(format!("{:?}, not the whole file's text", both.text))
        }
    }

    /// Byte by byte, in few and in many parts, with the smallest outputs and with long ones.
    fn divisions(&mut self, file: &[u8], random: &mut Random) -> Result<(), String> {
        let parts: [fn(&mut Random) -> usize; 4] = [
            |_| 1,
            |random| random.below(9) as usize,
            |random| random.below(200) as usize,
            |_| usize::MAX,
        ];
        let rooms: [fn(&mut Random) -> usize; 3] = [
            |_| LINE,
            // often too little for anything
            |random| random.within(LINE as u32 - 9, LINE as u32 + 30) as usize,
            |random| random.below(20 * LINE as u32) as usize,
        ];
        for part in parts {
            for room in rooms {
                self.divide(file, random, part, room)?;
            }
        }
        Ok(())
    }

    /// Every cut in two: the text and the last state of the whole.
    fn cuts(&mut self, file: &[u8]) -> Result<(), String> {
        let text = recording::text(file);
        let whole = played(&[file])?;
        for at in 0..=file.len() {
            let (front, rest) = file.split_at(at);
            let cut = played(&[front, rest])?;
            if cut.0 != text.as_bytes() || cut.1 != whole.1 {
                return Err(format!("cut at {at}: another text or state"));
            }
            self.cuts += 1;
        }
        Ok(())
    }
}

/// The text and the last state of parts that are written to a vector.
fn played(parts: &[&[u8]]) -> Result<(Vec<u8>, State), String> {
    let mut recorder = Recorder::new();
    let mut text = Vec::new();
    for part in parts {
        recorder
            .take(part, &mut text)
            .map_err(|e| format!("take: {e}"))?;
    }
    recorder
        .finish(&mut text)
        .map_err(|e| format!("finish: {e}"))?;
    Ok((text, recorder.state().clone()))
}

// ---- any content

/// A recorder that was never begun: any numbers, mostly such as it could have.
fn any_recorder(random: &mut Random) -> Recorder {
    let numbers: [u32; NUMBERS] = std::array::from_fn(|_| match random.below(4) {
        0 => random.word(),
        1 => random.below(HELD as u32 + 3),
        _ => random.below(4),
    });
    let bytes = std::array::from_fn(|_| random.below(34) as u8 * u8::from(random.percent(40)));
    let words = std::array::from_fn(|_| random.below(34));
    let state = State::of(words, [0; MESSAGES]);
    Recorder::of(numbers, bytes, state)
}

/// Whatever a recorder holds, two parts are as one, and nothing is written behind what is said.
fn contents(tally: &mut Tally, random: &mut Random) -> Result<(), String> {
    let begun = any_recorder(random);
    let bytes: Vec<u8> = (0..random.below(90))
        .map(|_| random.below(6) as u8 * u8::from(random.percent(30)))
        .collect();
    let (front, rest) = bytes.split_at(random.below(bytes.len() as u32 + 1) as usize);
    let all = |parts: [&[u8]; 2]| {
        let mut recorder = begun.clone();
        let mut text = Vec::new();
        for part in parts {
            recorder
                .take(part, &mut text)
                .map_err(|e| format!("take: {e}"))?;
        }
        Ok::<_, String>((recorder.state().clone(), text))
    };
    if all([&bytes, &[]])? != all([front, rest])? {
        return Err(format!("{begun:?} and {front:?}, {rest:?}"));
    }
    let mut output = [SENTINEL; 3 * LINE];
    let told = begun.clone().part(&bytes, &mut output);
    let kept = output[told.written..].iter().all(|byte| *byte == SENTINEL);
    if !kept || told.taken > bytes.len() {
        return Err(format!("{begun:?} and {bytes:?}: {told:?}"));
    }
    tally.contents += 1;
    Ok(())
}

// ---- the program

/// Each line comes as soon as its last byte is given.
fn live() -> Result<usize, String> {
    let run = Recording::drawn(&mut Random::new(77), Size::Small, 30);
    let file = run.bytes();
    let events = file.len() - 20 * run.events.len();
    let text = recording::text(&file);
    let mut lines = text.split_inclusive('\n');
    let mut parts = vec![(&file[..events], lines.next().unwrap_or_default())];
    for event in file[events..].chunks(20) {
        parts.push((&event[..19], ""));
        parts.push((&event[19..], lines.next().unwrap_or_default()));
    }
    program::live(&parts)?;
    Ok(run.events.len())
}

/// As many events as there can be, through a pipe.
fn million() -> Result<usize, String> {
    let file = Recording::drawn(&mut Random::new(5), Size::Small, MILLION).bytes();
    let text = recording::text(&file);
    if program::play(&file, 5000)? == text.as_bytes() && played(&[&file])?.0 == text.as_bytes() {
        Ok(text.len())
    } else {
        Err("1,000,000 events: another text".to_string())
    }
}

pub fn check() -> Verdict {
    let mut tally = Tally::default();
    for (path, file) in shipped_files()? {
        let random = &mut Random::new(file.len() as u64);
        let named = |d| format!("{}: {d}", path.display());
        tally.cuts(&file).map_err(named)?;
        tally.divisions(&file, random).map_err(named)?;
    }
    for seed in 0..FILES {
        let random = &mut Random::new(51_000 + seed);
        let many = random.below(EVENTS) as usize;
        let file = Recording::drawn(random, SIZES[seed as usize % SIZES.len()], many).bytes();
        let copy = damaged(random, &file);
        for file in [file, copy] {
            let named = |d| format!("{file:?}: {d}");
            tally.divisions(&file, random).map_err(named)?;
        }
    }
    for seed in 0..CONTENTS {
        contents(&mut tally, &mut Random::new(seed)).map_err(|d| format!("content {seed}: {d}"))?;
    }
    if tally.refused.contains(&0) || tally.full == 0 {
        return Err(format!("too little tested: {:?}", tally.refused));
    }
    let (lines, bytes) = (live()?, million()?);
    Ok(format!(
        "{} runs divided, the room ran out {} times, {} refused in a part and {} at the end; {} cuts in two; {} contents; {lines} lines one by one and 1,000,000 events, {bytes} bytes of text, by the program",
        tally.divided, tally.full, tally.refused[0], tally.refused[1], tally.cuts, tally.contents
    ))
}
