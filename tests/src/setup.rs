//! A second reader of setups, from "The setup" of the paper and request K11 alone: the first fault and its place, or what the setup has.
//! Recorded runs begin with a setup and are read by the same reader.

pub const ALARMS: usize = 8;
const COUNTER_MOST: u32 = 65535;

/// A counter and its alarms.
#[derive(Clone, PartialEq, Eq, Debug)]
pub struct Counter {
    /// It goes to one less and round.
    pub size: u32,
    /// The task of each alarm; whether it wakes it or starts it.
    pub alarms: [(u32, bool); ALARMS],
}

/// What a setup has.
#[derive(Clone, PartialEq, Eq, Debug)]
pub struct Setup {
    pub priorities: u32,
    /// Starting priority; whether it is started.
    pub tasks: Vec<(u32, bool)>,
    pub semaphores: Vec<u32>,
    pub flags: Vec<u32>,
    pub mailboxes: u32,
    pub messages: u32,
    /// Blocks of each.
    pub pools: Vec<u32>,
    pub counter: Option<Counter>,
}

/// The number of an S fault, and its place.
pub type Fault = (u32, usize);

pub struct Reader<'a> {
    bytes: &'a [u8],
    place: usize,
}

impl Reader<'_> {
    pub fn new(bytes: &[u8]) -> Reader<'_> {
        Reader { bytes, place: 0 }
    }

    pub fn word(&mut self) -> Result<u32, Fault> {
        let rest = &self.bytes[self.place..];
        let Some(four) = rest.first_chunk::<4>() else {
            return Err((1, self.place));
        };
        self.place += 4;
        Ok(u32::from_le_bytes(*four))
    }

    /// A word that is refused with the fault's number if it is outside the range.
    fn within(&mut self, low: u32, high: u32, fault: u32) -> Result<u32, Fault> {
        let place = self.place;
        let word = self.word()?;
        if low <= word && word <= high {
            Ok(word)
        } else {
            Err((fault, place))
        }
    }

    pub fn count(&mut self, low: u32, high: u32) -> Result<u32, Fault> {
        self.within(low, high, 2)
    }

    fn entry(&mut self, low: u32, high: u32) -> Result<u32, Fault> {
        self.within(low, high, 3)
    }

    fn entries(&mut self, count: u32, low: u32, high: u32) -> Result<Vec<u32>, Fault> {
        (0..count).map(|_| self.entry(low, high)).collect()
    }

    /// All eight sections, which a recorded run always has.
    pub fn setup(&mut self) -> Result<Setup, Fault> {
        let mut setup = self.seven_sections()?;
        setup.counter = self.counters(setup.tasks.len() as u32)?;
        Ok(setup)
    }

    /// A setup alone may end after seven sections: it has no counter then.
    fn setup_alone(&mut self) -> Result<Setup, Fault> {
        let mut setup = self.seven_sections()?;
        if self.end().is_err() {
            setup.counter = self.counters(setup.tasks.len() as u32)?;
        }
        Ok(setup)
    }

    fn counters(&mut self, tasks: u32) -> Result<Option<Counter>, Fault> {
        if self.count(0, 1)? == 0 {
            return Ok(None);
        }
        let size = self.entry(1, COUNTER_MOST)?;
        let mut alarms = [(0, false); ALARMS];
        for alarm in &mut alarms {
            *alarm = (self.entry(1, tasks)?, self.entry(0, 1)? == 1);
        }
        Ok(Some(Counter { size, alarms }))
    }

    fn seven_sections(&mut self) -> Result<Setup, Fault> {
        let priorities = self.count(1, 16)?;
        let mut tasks = Vec::new();
        for _ in 0..self.count(1, 32)? {
            tasks.push((self.entry(1, priorities)?, self.entry(0, 1)? == 1));
        }
        let many = self.count(0, 16)?;
        let semaphores = self.entries(many, 0, 65535)?;
        let many = self.count(0, 16)?;
        let flags = self.entries(many, 0, u32::MAX)?;
        let mailboxes = self.count(0, 16)?;
        let messages = self.count(0, 256)?;
        let many = self.count(0, 8)?;
        let pools = self.entries(many, 1, 32)?;
        Ok(Setup {
            priorities,
            tasks,
            semaphores,
            flags,
            mailboxes,
            messages,
            pools,
            counter: None,
        })
    }

    /// Nothing may follow.
    pub fn end(&self) -> Result<(), Fault> {
        if self.place < self.bytes.len() {
            Err((4, self.place))
        } else {
            Ok(())
        }
    }
}

/// The setup that the bytes have, or their first fault.
pub fn read(bytes: &[u8]) -> Result<Setup, Fault> {
    let mut reader = Reader::new(bytes);
    let setup = reader.setup_alone()?;
    reader.end()?;
    Ok(setup)
}

/// The words of a setup with all its sections, each with its smallest and greatest value.
pub fn ranged_words(s: &Setup) -> Vec<(u32, u32, u32)> {
    let mut words = vec![(s.priorities, 1, 16), (s.tasks.len() as u32, 1, 32)];
    for (priority, started) in &s.tasks {
        words.push((*priority, 1, s.priorities));
        words.push((u32::from(*started), 0, 1));
    }
    words.push((s.semaphores.len() as u32, 0, 16));
    words.extend(s.semaphores.iter().map(|count| (*count, 0, 65535)));
    words.push((s.flags.len() as u32, 0, 16));
    words.extend(s.flags.iter().map(|pattern| (*pattern, 0, u32::MAX)));
    words.push((s.mailboxes, 0, 16));
    words.push((s.messages, 0, 256));
    words.push((s.pools.len() as u32, 0, 8));
    words.extend(s.pools.iter().map(|blocks| (*blocks, 1, 32)));
    words.push((u32::from(s.counter.is_some()), 0, 1));
    if let Some(counter) = &s.counter {
        words.push((counter.size, 1, COUNTER_MOST));
        for (task, wakes) in counter.alarms {
            words.push((task, 1, s.tasks.len() as u32));
            words.push((u32::from(wakes), 0, 1));
        }
    }
    words
}

/// The bytes of words.
pub fn bytes_of(words: impl IntoIterator<Item = u32>) -> Vec<u8> {
    words.into_iter().flat_map(u32::to_le_bytes).collect()
}

/// The bytes of a setup with all its sections.
pub fn bytes(s: &Setup) -> Vec<u8> {
    bytes_of(ranged_words(s).into_iter().map(|(word, _, _)| word))
}
