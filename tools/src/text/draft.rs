//! A setup on its way from text to words. Its ranges are judged by the kernel's recorder; each word keeps its place in the text, so that a fault is
//! told there.
use okrozumba::recorder::{Recorder, Said, LINE};

use super::line::{Line, Place, Word, Wrong};
use crate::setup::{ALARMS, WORD};

/// A word of the file, where it comes from, and what is asked of it.
#[derive(Clone, Copy, Debug)]
struct Placed {
    value: u32,
    at: Place,
    asked: &'static str,
}

/// The entries of a section, one or two words each.
type Entries = Vec<Vec<Placed>>;

#[derive(Default)]
pub struct Draft {
    priorities: Option<Placed>,
    tasks: Entries,
    semaphores: Entries,
    flags: Entries,
    mailboxes: Option<Placed>,
    messages: Option<Placed>,
    pools: Entries,
    counter: Option<Placed>,
    alarms: [Option<[Placed; 2]>; ALARMS],
}

/// The words that begin a line of the setup.
pub const KEYWORDS: [&str; 9] = [
    "priorities",
    "task",
    "semaphore",
    "flag",
    "mailboxes",
    "messages",
    "pool",
    "counter",
    "alarm",
];

/// A number of the setup.
fn number(line: &mut Line, name: &str, asked: &'static str) -> Result<Placed, Wrong> {
    let word = line.due(name)?;
    Ok(Placed {
        value: word.unsigned()?,
        at: word.at,
        asked,
    })
}

/// One of two words, as 0 or 1.
fn choice(line: &mut Line, zero: &str, one: &str) -> Result<Placed, Wrong> {
    let (is_one, at) = line.either(zero, one)?;
    Ok(Placed {
        value: is_one.into(),
        at,
        asked: "",
    })
}

/// A section of one number.
fn once(
    section: &mut Option<Placed>,
    keyword: &Word,
    line: &mut Line,
    asked: &'static str,
) -> Result<(), Wrong> {
    if section.is_some() {
        return Err(keyword.wrong(format!("\"{}\" stands twice", keyword.text)));
    }
    *section = Some(number(line, "their number", asked)?);
    Ok(())
}

/// An entry of one number, which has a name.
fn entry(
    entries: &mut Entries,
    keyword: &Word,
    line: &mut Line,
    name: &str,
    asked: &'static str,
) -> Result<(), Wrong> {
    due_id(line, keyword.text, entries)?;
    line.keyword(name)?;
    entries.push(vec![number(
        line,
        &format!("the number behind \"{name}\""),
        asked,
    )?]);
    Ok(())
}

/// The next entry's id.
fn due_id(line: &mut Line, name: &str, entries: &Entries) -> Result<(), Wrong> {
    let word = line.due(&format!("the {name}'s number"))?;
    let due = entries.len() as u32 + 1;
    if word.unsigned()? == due {
        return Ok(());
    }
    Err(word.wrong(format!(
        "{name} {due} is due here, not {name} {}",
        word.text
    )))
}

/// The count of entries, which stands at the last one or else where it is said, then the entries.
fn section(entries: &Entries, else_at: Place, asked: &'static str) -> Vec<Placed> {
    let at = entries.last().map_or(else_at, |entry| entry[0].at);
    let value = entries.len() as u32;
    let mut words = vec![Placed { value, at, asked }];
    words.extend(entries.iter().flatten());
    words
}

impl Draft {
    /// A line of the setup.
    pub fn entry(&mut self, keyword: Word, mut line: Line) -> Result<(), Wrong> {
        let rest = &mut line;
        let key = &keyword;
        match keyword.text {
            "priorities" => once(
                &mut self.priorities,
                key,
                rest,
                "there are 1 to 16 priorities",
            )?,
            "task" => self.task(rest)?,
            "semaphore" => entry(
                &mut self.semaphores,
                key,
                rest,
                "count",
                "a semaphore's count is 0 to 65535",
            )?,
            "flag" => entry(&mut self.flags, key, rest, "pattern", "")?,
            "mailboxes" => once(
                &mut self.mailboxes,
                key,
                rest,
                "there are 0 to 16 mailboxes",
            )?,
            "messages" => once(&mut self.messages, key, rest, "there are 0 to 256 messages")?,
            "pool" => entry(
                &mut self.pools,
                key,
                rest,
                "blocks",
                "a pool has 1 to 32 blocks",
            )?,
            "counter" => once(
                &mut self.counter,
                key,
                rest,
                "a counter has 1 to 65535 counts",
            )?,
            _ => self.alarm(rest)?,
        }
        line.end()
    }

    fn task(&mut self, line: &mut Line) -> Result<(), Wrong> {
        due_id(line, "task", &self.tasks)?;
        line.keyword("priority")?;
        let asked = "a task's priority is 1 to the count of priorities";
        let priority = number(line, "the priority", asked)?;
        self.tasks
            .push(vec![priority, choice(line, "dormant", "started")?]);
        Ok(())
    }

    fn alarm(&mut self, line: &mut Line) -> Result<(), Wrong> {
        let id = line.due("the alarm's number")?;
        let place = (id.unsigned()? as usize).wrapping_sub(1);
        let Some(alarm) = self.alarms.get_mut(place) else {
            return Err(id.wrong(format!("alarms are 1 to {ALARMS}")));
        };
        if alarm.is_some() {
            return Err(id.wrong(format!("alarm {} stands twice", id.text)));
        }
        let act = choice(line, "starts", "wakes")?;
        line.keyword("task")?;
        let task = number(
            line,
            "the task's number",
            "an alarm's task is 1 to the count of tasks",
        )?;
        *alarm = Some([task, act]);
        Ok(())
    }

    /// The bytes of the setup and the count of events, the last of which stands at `last`.
    pub fn bytes(&self, events: usize, last: Place) -> Result<Vec<u8>, Wrong> {
        let mut words = self.words()?;
        words.push(Placed {
            value: events as u32,
            at: last,
            asked: "a run has 0 to 1000000 events",
        });
        let bytes = words.iter().flat_map(|word| word.value.to_le_bytes());
        let bytes: Vec<u8> = bytes.collect();
        match Recorder::new().part(&bytes, &mut [0; LINE]).said {
            Said::Refused(bad) => {
                let Placed { value, at, asked } = words[bad.place / WORD];
                let what = format!("{value} is out of range: {asked}");
                Err(Wrong { at, what })
            }
            _ => Ok(bytes),
        }
    }

    /// All eight sections. What does not stand in the text is 0, and its place is that of the priorities.
    fn words(&self) -> Result<Vec<Placed>, Wrong> {
        let Some(priorities) = self.priorities else {
            return Err(Wrong {
                at: Place::FIRST,
                what: "\"priorities\" and their number are missing in the setup".to_string(),
            });
        };
        let absent = |value| Placed {
            value,
            at: priorities.at,
            asked: "",
        };
        let section = |entries, asked| section(entries, priorities.at, asked);
        let mut words = vec![priorities];
        words.extend(section(&self.tasks, "there are 1 to 32 tasks"));
        words.extend(section(&self.semaphores, "there are 0 to 16 semaphores"));
        words.extend(section(&self.flags, "there are 0 to 16 flags"));
        words.push(self.mailboxes.unwrap_or(absent(0)));
        words.push(self.messages.unwrap_or(absent(0)));
        words.extend(section(&self.pools, "there are 0 to 8 pools"));
        words.extend(self.counter_words(absent)?);
        Ok(words)
    }

    /// A counter has all its alarms; one that does not stand in the text starts task 1.
    fn counter_words(&self, absent: impl Fn(u32) -> Placed) -> Result<Vec<Placed>, Wrong> {
        let Some(size) = self.counter else {
            return match self.alarms.iter().flatten().next() {
                None => Ok(vec![absent(0)]),
                Some([task, _]) => Err(Wrong {
                    at: task.at,
                    what: "an alarm needs a counter".to_string(),
                }),
            };
        };
        let mut words = vec![absent(1), size];
        for alarm in self.alarms {
            words.extend(alarm.unwrap_or([absent(1), absent(0)]));
        }
        Ok(words)
    }
}
