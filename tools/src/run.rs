//! A recorded run, event by event, as the kernel's recorder takes it.
use std::io;

use okrozumba::recorder::{BadRun, Recorder, Said, LINE};
use okrozumba::{Answer, Fault, State, EVENT_WORDS};

use crate::setup::WORD;

/// An event's words: kind, call, a, b, c.
pub type Five = [i32; EVENT_WORDS];

/// A line of the run's text.
#[derive(Clone, Copy, PartialEq, Eq, Debug)]
pub enum Line {
    /// Setup and count are accepted; the running task.
    Start(u32),
    /// An event with its number and its answer.
    Event(u32, Five, Answer),
    /// The run's fault; nothing follows.
    Refused(BadRun),
}

/// Plays a run.
pub struct Player<'a> {
    bytes: &'a [u8],
    at: usize,
    recorder: Recorder,
}

impl<'a> Player<'a> {
    pub fn new(bytes: &'a [u8]) -> Player<'a> {
        Player {
            bytes,
            at: 0,
            recorder: Recorder::new(),
        }
    }

    /// The kernel after the last line.
    pub fn state(&self) -> &State {
        self.recorder.state()
    }

    /// The line that was written, if one was; its event's last byte was just taken.
    fn line(&self, said: Said, text: &[u8]) -> Option<Line> {
        if let Said::Refused(bad) = said {
            return Some(Line::Refused(bad));
        }
        let text = String::from_utf8_lossy(text);
        let text = text.trim_end();
        match text.strip_prefix("start ") {
            Some(running) => running.parse().ok().map(Line::Start),
            None => answer(text).map(|(number, answer)| {
                let event = self.at - WORD * EVENT_WORDS;
                Line::Event(number, five(&self.bytes[event..]), answer)
            }),
        }
    }
}

/// The fault of a run, if it has one.
pub fn fault(bytes: &[u8]) -> Option<BadRun> {
    let mut recorder = Recorder::new();
    let taken = recorder.take(bytes, &mut io::sink()).ok()?;
    match (taken, recorder.finish(&mut io::sink()).ok()?) {
        (Said::Refused(bad), _) | (_, Said::Refused(bad)) => Some(bad),
        _ => None,
    }
}

/// The event at the front of bytes.
pub fn five(bytes: &[u8]) -> Five {
    let mut words = bytes.chunks_exact(WORD);
    [(); EVENT_WORDS].map(|()| {
        let word = words.next().and_then(|word| word.try_into().ok());
        i32::from_le_bytes(word.expect("an event has five words of four bytes"))
    })
}

/// An event's number and answer from its line.
pub fn answer(line: &str) -> Option<(u32, Answer)> {
    let words: Vec<&str> = line.split(' ').collect();
    let [number, code, w1, w2, running, released] = words[..] else {
        return None;
    };
    let answer = Answer {
        code: code.parse().ok()?,
        w1: w1.parse().ok()?,
        w2: w2.parse().ok()?,
        running: running.parse().ok()?,
        released: released.parse().ok()?,
    };
    Some((number.parse().ok()?, answer))
}

impl Iterator for Player<'_> {
    type Item = Line;

    /// With room for one line the recorder stops behind each.
    fn next(&mut self) -> Option<Line> {
        let mut text = [0; LINE];
        let mut told = self.recorder.part(&self.bytes[self.at..], &mut text);
        self.at += told.taken;
        if told.written == 0 {
            told = self.recorder.end(&mut text);
        }
        self.line(told.said, &text[..told.written])
    }
}

/// The faults by their digits, from 1.
const FAULTS: [Fault; 4] = [Fault::S1, Fault::S2, Fault::S3, Fault::S4];

/// A run's fault as `play` writes it.
pub fn refused(bad: BadRun) -> String {
    let before = FAULTS
        .iter()
        .take_while(|fault| **fault != bad.fault)
        .count();
    format!("refused {} {}", before + 1, bad.place)
}

/// The same, then in words.
pub fn refusal(bad: BadRun) -> String {
    format!("{}: {}", refused(bad), bad.fault)
}

/// The fault and place of such a line.
pub fn bad(line: &str) -> Option<BadRun> {
    let (digit, place) = line.strip_prefix("refused ")?.split_once(' ')?;
    let before = digit.parse::<usize>().ok()?.checked_sub(1)?;
    Some(BadRun {
        fault: *FAULTS.get(before)?,
        place: place.parse().ok()?,
    })
}

#[cfg(test)]
mod tests {
    use super::*;
    use crate::samples;
    use okrozumba::playback;

    /// The lines as `play` writes them.
    fn text(bytes: &[u8]) -> String {
        let mut text = String::new();
        for line in Player::new(bytes) {
            text += &match line {
                Line::Start(running) => format!("start {running}\n"),
                Line::Event(number, _, answer) => format!(
                    "{number} {} {} {} {} {}\n",
                    answer.code, answer.w1, answer.w2, answer.running, answer.released
                ),
                Line::Refused(bad) => refused(bad) + "\n",
            };
        }
        text
    }

    #[test]
    fn refusals() {
        for fault in FAULTS {
            let found = BadRun { fault, place: 104 };
            assert_eq!(bad(&refused(found)), Some(found));
        }
        assert_eq!(
            (bad("refused 0 4"), bad("refused 5 4"), bad("start 1")),
            (None, None, None)
        );
    }

    #[test]
    fn the_lines_are_the_players() {
        for run in samples::shipped() {
            let mut played = vec![0; 100_000];
            let long = playback::play(&run.bytes, &mut played).expect("there is place");
            assert_eq!(text(&run.bytes).as_bytes(), &played[..long], "{}", run.name);
        }
    }

    #[test]
    fn the_events_are_the_files() {
        for seed in 0..20 {
            let (bytes, events) = samples::drawn(seed, 100);
            let found = Player::new(&bytes).filter_map(|line| match line {
                Line::Event(_, five, _) => Some(five),
                _ => None,
            });
            assert_eq!(found.collect::<Vec<_>>(), events);
        }
    }
}
