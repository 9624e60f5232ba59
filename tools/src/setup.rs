//! The sections of a setup. Nothing is judged here: the words before a fault's place were accepted by the kernel's own reading.

/// Bytes of a word.
pub const WORD: usize = 4;
/// Alarms of a counter.
pub const ALARMS: usize = 8;

#[derive(Clone, Copy, PartialEq, Eq, Debug)]
pub struct Task {
    pub priority: u32,
    pub started: bool,
}

#[derive(Clone, Copy, PartialEq, Eq, Debug)]
pub struct Alarm {
    pub task: u32,
    pub wakes: bool,
}

#[derive(Clone, PartialEq, Eq, Debug)]
pub struct Counter {
    pub size: u32,
    pub alarms: Vec<Alarm>,
}

/// What was read of a setup. A section that the words do not reach is empty.
#[derive(Clone, PartialEq, Eq, Debug, Default)]
pub struct Setup {
    pub priorities: Option<u32>,
    pub tasks: Vec<Task>,
    pub semaphores: Vec<u32>,
    pub flags: Vec<u32>,
    pub mailboxes: Option<u32>,
    pub messages: Option<u32>,
    pub pools: Vec<u32>,
    pub counter: Option<Counter>,
    /// Sections that were read to their end, 0 to 8.
    pub whole: usize,
}

/// A section of a setup.
#[derive(Clone, Copy, PartialEq, Eq, Debug)]
pub enum Section {
    Priorities,
    Tasks,
    Semaphores,
    Flags,
    Mailboxes,
    Messages,
    Pools,
    Counter,
}

impl Section {
    /// In the order of the file.
    pub const ALL: [Section; 8] = [
        Section::Priorities,
        Section::Tasks,
        Section::Semaphores,
        Section::Flags,
        Section::Mailboxes,
        Section::Messages,
        Section::Pools,
        Section::Counter,
    ];

    pub fn name(self) -> &'static str {
        match self {
            Section::Priorities => "priorities",
            Section::Tasks => "tasks",
            Section::Semaphores => "semaphores",
            Section::Flags => "flags",
            Section::Mailboxes => "mailboxes",
            Section::Messages => "messages",
            Section::Pools => "pools",
            Section::Counter => "counter",
        }
    }
}

/// The whole words of bytes, one after the other.
struct Words<'a> {
    bytes: &'a [u8],
    at: usize,
}

impl Words<'_> {
    fn next(&mut self) -> Option<u32> {
        let word = self.bytes.get(self.at..self.at + WORD)?;
        self.at += WORD;
        word.try_into().ok().map(u32::from_le_bytes)
    }

    /// A section with one word for each entry.
    fn entries(&mut self, entries: &mut Vec<u32>) -> Option<()> {
        for _ in 0..self.next()? {
            entries.push(self.next()?);
        }
        Some(())
    }
}

impl Setup {
    /// The setup at the front of accepted bytes, and its length.
    pub fn read(bytes: &[u8]) -> (Setup, usize) {
        let mut setup = Setup::default();
        let mut words = Words { bytes, at: 0 };
        for section in Section::ALL {
            if setup.section(section, &mut words).is_none() {
                break;
            }
            setup.whole += 1;
        }
        (setup, words.at)
    }

    /// Reads a section; nothing if the words end in it.
    fn section(&mut self, section: Section, words: &mut Words) -> Option<()> {
        match section {
            Section::Priorities => self.priorities = Some(words.next()?),
            Section::Tasks => self.tasks(words)?,
            Section::Semaphores => words.entries(&mut self.semaphores)?,
            Section::Flags => words.entries(&mut self.flags)?,
            Section::Mailboxes => self.mailboxes = Some(words.next()?),
            Section::Messages => self.messages = Some(words.next()?),
            Section::Pools => words.entries(&mut self.pools)?,
            Section::Counter => self.counter(words)?,
        }
        Some(())
    }

    fn tasks(&mut self, words: &mut Words) -> Option<()> {
        for _ in 0..words.next()? {
            self.tasks.push(Task {
                priority: words.next()?,
                started: words.next()? == 1,
            });
        }
        Some(())
    }

    fn counter(&mut self, words: &mut Words) -> Option<()> {
        if words.next()? == 0 {
            return Some(());
        }
        let counter = self.counter.insert(Counter {
            size: words.next()?,
            alarms: Vec::new(),
        });
        for _ in 0..ALARMS {
            counter.alarms.push(Alarm {
                task: words.next()?,
                wakes: words.next()? == 1,
            });
        }
        Some(())
    }
}

#[cfg(test)]
mod tests {
    use super::*;

    fn bytes(words: &[u32]) -> Vec<u8> {
        words.iter().flat_map(|word| word.to_le_bytes()).collect()
    }

    const SHEET: [u32; 17] = [4, 3, 2, 1, 2, 1, 1, 0, 1, 0, 1, 0, 1, 2, 1, 2, 0];

    #[test]
    fn the_bench_sheet() {
        let (setup, length) = Setup::read(&bytes(&SHEET));
        assert_eq!(
            (length, setup.whole),
            (WORD * SHEET.len(), Section::ALL.len())
        );
        assert_eq!(setup.priorities, Some(4));
        assert_eq!(setup.tasks.len(), 3);
        assert!(!setup.tasks[2].started);
        assert_eq!((setup.pools, setup.counter), (vec![2], None));
    }

    #[test]
    fn words_that_end_early() {
        let (setup, _) = Setup::read(&bytes(&SHEET[..5]));
        assert_eq!((setup.whole, setup.tasks.len()), (1, 1));
        assert_eq!(Setup::read(&[]).0, Setup::default());
    }
}
