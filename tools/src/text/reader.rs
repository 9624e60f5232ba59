//! From text to the file of a run.
use okrozumba::context;

use super::draft::{Draft, KEYWORDS};
use super::line::{nearest, Line, Place, Word, Wrong};
use super::words::{ANY, HANDLER, PLAIN, TASK, UNUSED};
use crate::calls::{self, Call, CALLS};
use crate::run::Five;

/// The file of a run, which the kernel's recorder accepts; or the first thing that is wrong with the text.
pub fn assemble(text: &str) -> Result<Vec<u8>, Wrong> {
    let mut reader = Reader {
        draft: Draft::default(),
        events: Vec::new(),
        last: Place::FIRST,
    };
    for (before, line) in text.lines().enumerate() {
        reader.line(Line::new(line, before + 1))?;
    }
    let mut bytes = reader.draft.bytes(reader.events.len(), reader.last)?;
    bytes.extend(
        reader
            .events
            .iter()
            .flatten()
            .flat_map(|word| word.to_le_bytes()),
    );
    Ok(bytes)
}

/// The text of a file, without the mark that some editors put first. Bytes that are no UTF-8 have a place, too.
pub fn utf8(bytes: &[u8]) -> Result<&str, Wrong> {
    let text = std::str::from_utf8(bytes).map(|text| text.trim_start_matches('\u{feff}'));
    text.map_err(|wrong| {
        let before = String::from_utf8_lossy(&bytes[..wrong.valid_up_to()]);
        let line = before.matches('\n').count() + 1;
        let column = before
            .rsplit('\n')
            .next()
            .map_or(0, |last| last.chars().count())
            + 1;
        Wrong {
            at: Place {
                line,
                column,
                width: 1,
            },
            what: "a byte that is no text (UTF-8) stands here".to_string(),
        }
    })
}

struct Reader {
    draft: Draft,
    events: Vec<Five>,
    /// The word that began the last event.
    last: Place,
}

impl Reader {
    fn line(&mut self, mut line: Line) -> Result<(), Wrong> {
        let Some(first) = line.take() else {
            return Ok(());
        };
        if KEYWORDS.contains(&first.text) {
            return self.entry(first, line);
        }
        let number = first.is_number();
        let word = if number {
            line.due("the event behind its number")?
        } else {
            first
        };
        let event = event(word, &mut line)?;
        line.end().map_err(too_much)?;
        self.events.push(event);
        self.last = word.at;
        Ok(())
    }

    fn entry(&mut self, keyword: Word, line: Line) -> Result<(), Wrong> {
        if self.events.is_empty() {
            return self.draft.entry(keyword, line);
        }
        Err(keyword.wrong("the setup stands before the first event"))
    }
}

fn too_much(wrong: Wrong) -> Wrong {
    let what = format!(
        "{} (words that do not count stand behind \"{UNUSED}\")",
        wrong.what
    );
    Wrong { what, ..wrong }
}

fn event(word: Word, line: &mut Line) -> Result<Five, Wrong> {
    if let Some((_, kind)) = PLAIN.iter().find(|(name, _)| *name == word.text) {
        let mut five = [*kind, 0, 0, 0, 0];
        unused(line, &mut five[1..])?;
        return Ok(five);
    }
    match word.text {
        TASK => call(context::TASK, line),
        HANDLER => call(context::HANDLER, line),
        ANY => {
            let mut five = Five::default();
            for (place, name) in five.iter_mut().zip(["kind", "call", "a", "b", "c"]) {
                *place = line.due(name)?.signed()?;
            }
            Ok(five)
        }
        _ => Err(no_event(word)),
    }
}

fn no_event(word: Word) -> Wrong {
    let name = word.text;
    if calls::by_name(name).is_some() {
        return word.wrong(format!("who calls {name}? \"{TASK}\" (the running task) or \"{HANDLER}\" (a handler) is missing"));
    }
    if name == "refused" {
        return word.wrong("this run was refused: it is not whole");
    }
    let plain = PLAIN.iter().map(|(name, _)| *name);
    let known = KEYWORDS
        .into_iter()
        .chain(plain)
        .chain([TASK, HANDLER, ANY]);
    word.wrong(match nearest(name, known) {
        Some(near) => format!("no line begins with \"{name}\"; is \"{near}\" meant?"),
        None => format!("no line begins with \"{name}\""),
    })
}

fn call(kind: i32, line: &mut Line) -> Result<Five, Wrong> {
    let name = line.due("the call")?;
    let mut five = [kind, 0, 0, 0, 0];
    let [_, number, words @ ..] = &mut five;
    if name.is_number() {
        *number = name.signed()?;
        any_words(line, words)?;
    } else {
        let call = calls::by_name(name.text).ok_or_else(|| no_call(name))?;
        *number = call.number;
        let (taken, rest) = words.split_at_mut(call.takes.len());
        words_of(call, line, taken)?;
        unused(line, rest)?;
    }
    Ok(five)
}

fn no_call(name: Word) -> Wrong {
    let text = name.text;
    name.wrong(match nearest(text, CALLS.iter().map(|call| call.name)) {
        Some(near) => format!("no call has the name \"{text}\"; is \"{near}\" meant?"),
        None => format!("no call has the name \"{text}\""),
    })
}

/// A call by its number says all its words.
fn any_words(line: &mut Line, words: &mut [i32]) -> Result<(), Wrong> {
    for (place, name) in words.iter_mut().zip(["a", "b", "c"]) {
        let what = format!("word {name} of a call by its number");
        *place = line.due(&what)?.signed()?;
    }
    Ok(())
}

fn words_of(call: &Call, line: &mut Line, words: &mut [i32]) -> Result<(), Wrong> {
    for (place, taken) in words.iter_mut().zip(call.takes) {
        let word = line.due(&format!("the {} of {}", taken.name(), call.name))?;
        let named = taken.named().iter().find(|(name, _)| *name == word.text);
        *place = match named {
            Some((_, value)) => *value,
            None => word.signed()?,
        };
    }
    Ok(())
}

/// All words that do not count, if they are given; else they stay 0.
fn unused(line: &mut Line, words: &mut [i32]) -> Result<(), Wrong> {
    if line.follows(UNUSED) {
        let all = format!("one of {} words behind \"{UNUSED}\"", words.len());
        for place in words {
            *place = line.due(&all)?.signed()?;
        }
    }
    Ok(())
}

#[cfg(test)]
mod tests {
    use super::*;

    const SETUP: &str = "priorities 2\ntask 1 priority 1 started\n";

    fn words(text: &str) -> Vec<i32> {
        let bytes = assemble(text).expect("a good text");
        let words = bytes
            .chunks_exact(4)
            .map(|word| i32::from_le_bytes(word.try_into().unwrap()));
        words.collect()
    }

    /// What is said of a text behind a good setup.
    fn wrong(text: &str) -> String {
        assemble(&(SETUP.to_string() + text))
            .unwrap_err()
            .to_string()
    }

    #[test]
    fn the_bench_sheet() {
        let text = "# by hand\npriorities 4\ntask 1 priority 2 started\ntask 2 priority 2 started\ntask 3, priority 1, dormant\n\
            semaphore 1 count 0\nflag 1 pattern 0x0\nmailboxes 1\nmessages 2\npool 1 blocks 2\n\nX sta_tsk 3\n2 X>slp_tsk # asleep\n";
        let file = [
            4, 3, 2, 1, 2, 1, 1, 0, 1, 0, 1, 0, 1, 2, 1, 2, 0, 2, 0, 1, 3, 0, 0, 0, 9, 0, 0, 0,
        ];
        assert_eq!(words(text), file);
    }

    #[test]
    fn a_counter_and_alarms() {
        let text = SETUP.to_string() + "counter 60\nalarm 2 wakes task 1\n";
        let mut file = vec![2, 1, 1, 1, 0, 0, 0, 0, 0, 1, 60, 1, 0, 1, 1];
        file.extend([1, 0].repeat(6));
        file.push(0);
        assert_eq!(words(&text), file);
    }

    #[test]
    fn events_with_a_word_wrong() {
        assert_eq!(
            wrong("X sta_tks 1"),
            "3:3: no call has the name \"sta_tks\"; is \"sta_tsk\" meant?"
        );
        assert_eq!(wrong("X sta_tsk"), "3:10: the task of sta_tsk is missing");
        assert_eq!(
            wrong("\n  X>sta_tsk(one)"),
            "4:13: a number is due here, not \"one\""
        );
        assert!(wrong("X sig_sem 1 2").starts_with("3:13: \"2\" is too much here"));
        assert!(wrong("sta_tsk 1").starts_with("3:1: who calls sta_tsk?"));
        assert_eq!(
            wrong("tik"),
            "3:1: no line begins with \"tik\"; is \"tick\" meant?"
        );
        assert_eq!(
            wrong("X 40 1 2"),
            "3:9: word c of a call by its number is missing"
        );
        assert_eq!(
            wrong("tick unused 1"),
            "3:14: one of 4 words behind \"unused\" is missing"
        );
        assert_eq!(
            wrong("event 9 2147483648 0 0 0"),
            "3:9: 2147483648 is not from -2147483648 to 2147483647"
        );
        assert_eq!(
            wrong("X slp_tsk\nrefused 1 20"),
            "4:1: this run was refused: it is not whole"
        );
    }

    #[test]
    fn setups_with_a_word_wrong() {
        assert_eq!(
            wrong("task 3 priority 1 started"),
            "3:6: task 2 is due here, not task 3"
        );
        assert_eq!(
            wrong("task 2 priority 3 started"),
            "3:17: 3 is out of range: a task's priority is 1 to the count of priorities"
        );
        assert_eq!(wrong("priorities 3"), "3:1: \"priorities\" stands twice");
        assert_eq!(
            wrong("tick\npool 1 blocks 2"),
            "4:1: the setup stands before the first event"
        );
        assert_eq!(
            wrong("alarm 1 starts task 1"),
            "3:21: an alarm needs a counter"
        );
        assert_eq!(
            wrong("counter 9\nalarm 9 starts task 1"),
            "4:7: alarms are 1 to 8"
        );
        assert_eq!(
            wrong("task 2 priority 1"),
            "3:18: \"dormant\" or \"started\" is missing"
        );
        let blocks = "pool 1 blocks 1\n".to_string() + "pool 2 blocks 40";
        assert_eq!(
            wrong(&blocks),
            "4:15: 40 is out of range: a pool has 1 to 32 blocks"
        );
    }

    #[test]
    fn texts_without_a_setup() {
        let nothing = assemble("").unwrap_err().to_string();
        assert_eq!(
            nothing,
            "1:1: \"priorities\" and their number are missing in the setup"
        );
        let nobody = assemble("priorities 1\n").unwrap_err().to_string();
        assert_eq!(nobody, "1:12: 0 is out of range: there are 1 to 32 tasks");
    }

    #[test]
    fn bytes_that_are_no_text() {
        let wrong = utf8(b"priorities 1\n# \xff").unwrap_err();
        assert_eq!((wrong.at.line, wrong.at.column), (2, 3));
    }
}
