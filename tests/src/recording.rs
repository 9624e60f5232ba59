//! A second player of recorded runs, from requests K1 and K8 alone: from a whole file's bytes to its text. And random runs to record.
use crate::plain::{Answer, Event, Plain};
use crate::random::Random;
use crate::script::{self, Author, Size};
use crate::setup::{self, Fault, Reader, Setup};

const EVENTS_MOST: u32 = 1_000_000;
const TICK: i32 = 2;
const ENTRY: i32 = 3;
const RETURN: i32 = 4;

/// An event: kind (0 task, 1 handler, 2 tick, 3 entry, 4 return), call, a, b, c.
pub type Five = [i32; 5];

#[derive(Clone, Debug)]
pub struct Recording {
    pub setup: Setup,
    pub events: Vec<Five>,
}

/// Of a tick, an entry and a return only the kind counts. Any other kind is a context; one that no call can have gets code -1, as H_CALL
/// does.
pub fn event([kind, number, a, b, c]: Five) -> Event {
    match kind {
        TICK => Event::Tick,
        ENTRY => Event::Enter,
        RETURN => Event::Leave,
        context => Event::Call {
            context,
            number,
            a,
            b,
            c,
        },
    }
}

pub fn words(event: Event) -> Five {
    match event {
        // words that don't count
        Event::Tick => [TICK, 5, -1, 77, 3],
        Event::Enter => [ENTRY, 9, 0, -1, 1],
        Event::Leave => [RETURN, -3, 2, i32::MIN, 4],
        Event::Call {
            context,
            number,
            a,
            b,
            c,
        } => [context, number, a, b, c],
    }
}

// ---- files

impl Recording {
    /// A random run of so many events.
    pub fn drawn(random: &mut Random, size: Size, many: usize) -> Recording {
        let setup = script::setup(random, size);
        let mut plain = Plain::fresh(&setup);
        let mut author = Author::default();
        let mut next = || {
            let five = words(author.event(random, &plain));
            plain.event(event(five));
            five
        };
        let events = (0..many).map(|_| next()).collect();
        Recording { setup, events }
    }

    /// Its file.
    pub fn bytes(&self) -> Vec<u8> {
        let mut bytes = setup::bytes(&self.setup);
        let count = self.events.len() as u32;
        let words = self.events.iter().flatten().map(|word| *word as u32);
        bytes.extend(setup::bytes_of([count].into_iter().chain(words)));
        bytes
    }
}

// ---- reading

/// The setup and the number of events.
pub fn front(reader: &mut Reader) -> Result<(Setup, u32), Fault> {
    Ok((reader.setup()?, reader.count(0, EVENTS_MOST)?))
}

pub fn five(reader: &mut Reader) -> Result<Five, Fault> {
    let mut five = Five::default();
    for word in &mut five {
        *word = reader.word()? as i32;
    }
    Ok(five)
}

// ---- texts

pub fn refusal((fault, place): Fault) -> String {
    format!("refused {fault} {place}\n")
}

pub fn start(plain: &Plain) -> String {
    format!("start {}\n", plain.running().unwrap_or(0))
}

pub fn line(number: u32, answer: Answer) -> String {
    let Answer {
        code,
        w1,
        w2,
        running,
        released,
    } = answer;
    format!("{number} {code} {w1} {w2} {running} {released}\n")
}

/// Writes the lines of a file; gives the refusal that comes behind them.
fn play(file: &[u8], text: &mut String) -> Result<(), Fault> {
    let mut reader = Reader::new(file);
    let (setup, many) = front(&mut reader)?;
    let mut plain = Plain::fresh(&setup);
    *text += &start(&plain);
    for number in 1..=many {
        let five = five(&mut reader)?;
        *text += &line(number, plain.event(event(five)));
    }
    reader.end()
}

/// The text of a file.
pub fn text(file: &[u8]) -> String {
    let mut text = String::new();
    if let Err(fault) = play(file, &mut text) {
        text += &refusal(fault);
    }
    text
}
