//! From a recorded run to its text.
use std::io::{self, Write};

use okrozumba::recorder::BadRun;
use okrozumba::Answer;

use super::words;
use crate::run::{self, Five, Line, Player};
use crate::setup::{Counter, Section, Setup};

/// Columns of an event's number, and of the event before its answer.
const NUMBER: usize = 5;
const EVENT: usize = 32;
/// Columns between them.
const BLANK: usize = 2;
/// Columns of an entry's kind and id.
const NAMED: usize = 12;

/// Writes the text of a run, which assembles to the same bytes, with the answers as comments. At a fault the line "refused" with its digit and
/// place, which does not assemble, follows what stands before it; that fault is given.
pub fn list(name: &str, bytes: &[u8], out: &mut impl Write) -> io::Result<Option<BadRun>> {
    writeln!(out, "# {name}: {} bytes", bytes.len())?;
    let mut lines = Player::new(bytes);
    match lines.next() {
        Some(Line::Refused(bad)) => {
            setup(&Setup::read(&bytes[..bad.place]).0, out)?;
            return refusal(bad, out).map(Some);
        }
        Some(Line::Start(running)) => {
            setup(&Setup::read(bytes).0, out)?;
            writeln!(out, "\n# start: {}", words::runs(running))?;
        }
        _ => {}
    }
    for line in lines {
        match line {
            Line::Event(number, five, answer) => event(number, five, answer, out)?,
            Line::Refused(bad) => return refusal(bad, out).map(Some),
            Line::Start(_) => {}
        }
    }
    Ok(None)
}

fn event(number: u32, five: Five, answer: Answer, out: &mut impl Write) -> io::Result<()> {
    let event = words::event(five);
    let answer = words::answer(five, answer);
    writeln!(out, "{number:>NUMBER$}  {event:<EVENT$}  # {answer}")
}

fn refusal(bad: BadRun, out: &mut impl Write) -> io::Result<BadRun> {
    const LINE: usize = NUMBER + BLANK + EVENT;
    let line = run::refused(bad);
    writeln!(out, "{line:<LINE$}  # {}", bad.fault)?;
    Ok(bad)
}

/// Each section in words; an empty one that was read to its end as a comment.
fn setup(setup: &Setup, out: &mut impl Write) -> io::Result<()> {
    for (before, section) in Section::ALL.into_iter().enumerate() {
        let lines = section_lines(setup, section);
        if lines.is_empty() && before < setup.whole {
            writeln!(out, "# no {}", section.name())?;
        }
        for line in lines {
            writeln!(out, "{line}")?;
        }
    }
    Ok(())
}

/// The lines of a section.
pub fn section_lines(setup: &Setup, section: Section) -> Vec<String> {
    let number = |count: Option<u32>| {
        let line = count.map(|count| format!("{} {count}", section.name()));
        line.into_iter().collect()
    };
    match section {
        Section::Priorities => number(setup.priorities),
        Section::Tasks => entries("task", &setup.tasks, |task| {
            let state = if task.started { "started" } else { "dormant" };
            format!("priority {:<2} {state}", task.priority)
        }),
        Section::Semaphores => entries("semaphore", &setup.semaphores, |count| {
            format!("count {count}")
        }),
        Section::Flags => entries("flag", &setup.flags, |pattern| {
            format!("pattern {pattern:#x}")
        }),
        Section::Mailboxes => number(setup.mailboxes),
        Section::Messages => number(setup.messages),
        Section::Pools => entries("pool", &setup.pools, |blocks| format!("blocks {blocks}")),
        Section::Counter => setup.counter.as_ref().map_or(Vec::new(), counter),
    }
}

fn entries<T>(kind: &str, entries: &[T], said: impl Fn(&T) -> String) -> Vec<String> {
    let line = |(before, entry)| {
        let named = format!("{kind} {}", before + 1);
        format!("{named:<NAMED$} {}", said(entry))
    };
    entries.iter().enumerate().map(line).collect()
}

fn counter(counter: &Counter) -> Vec<String> {
    let mut lines = vec![format!("counter {}", counter.size)];
    lines.extend(entries("alarm", &counter.alarms, |alarm| {
        let act = if alarm.wakes { "wakes" } else { "starts" };
        format!("{act:<6} task {}", alarm.task)
    }));
    lines
}

#[cfg(test)]
mod tests {
    use super::*;
    use crate::samples;
    use crate::text::reader::assemble;

    fn listed(bytes: &[u8]) -> (String, Option<BadRun>) {
        let mut text = Vec::new();
        let bad = list("a run", bytes, &mut text).expect("memory takes all");
        (String::from_utf8(text).expect("it is text"), bad)
    }

    #[test]
    fn shipped_runs_assemble_back() {
        for run in samples::shipped() {
            let (text, bad) = listed(&run.bytes);
            match bad {
                None => assert_eq!(assemble(&text).as_ref(), Ok(&run.bytes), "{}", run.name),
                Some(bad) => {
                    assert!(
                        text.contains(&format!("\n{} ", run::refused(bad))),
                        "{}",
                        run.name
                    );
                    assert!(assemble(&text).is_err(), "{}", run.name);
                }
            }
        }
    }

    #[test]
    fn random_runs_assemble_back() {
        for seed in 0..300 {
            let (bytes, _) = samples::drawn(seed, seed as usize % 50);
            let (text, bad) = listed(&bytes);
            assert_eq!(
                (assemble(&text), bad),
                (Ok(bytes), None),
                "seed {seed}\n{text}"
            );
        }
    }

    /// Every cut of a run is refused, its text holds the whole events before, and does not assemble.
    #[test]
    fn cut_runs() {
        let (bytes, _) = samples::drawn(7, 3);
        for end in 0..bytes.len() {
            let (text, bad) = listed(&bytes[..end]);
            let bad = bad.expect("a cut run is refused");
            assert_eq!(bad.place, end / 4 * 4);
            assert!(assemble(&text).is_err());
            let events = text.lines().filter(|line| line.starts_with("    "));
            let front = bytes.len() - 3 * 20;
            assert_eq!(events.count(), end.saturating_sub(front) / 20);
        }
    }

    #[test]
    fn a_line_with_its_answer() {
        let sheet = samples::shipped()
            .into_iter()
            .find(|run| run.name.ends_with("bench_sheet.run"));
        let (text, _) = listed(&sheet.expect("it is shipped").bytes);
        let lines: Vec<&str> = text.lines().rev().take(2).collect();
        assert_eq!(
            lines[1],
            "    1  X>sta_tsk(3)                      # E_OK      runs 3"
        );
        assert_eq!(
            lines[0],
            "    2  X>slp_tsk                         # WAITS     runs 1"
        );
    }
}
