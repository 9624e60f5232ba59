//! What a second setup changes in a run, as a page: the two setups, where the events differ, and the events that do, side by side.
use okrozumba::compare::{self, TEXT};
use okrozumba::recorder::BadRun;
use okrozumba::{Answer, EVENT_WORDS};

use crate::html::{self, escaped};
use crate::picture::model::{spans, Picture, Range};
use crate::picture::svg;
use crate::run::{self, Five};
use crate::setup::{Section, Setup, WORD};
use crate::text::{words, writer};

/// An event whose answers differ.
struct Change {
    number: u32,
    five: Five,
    first: Answer,
    second: Answer,
}

/// The parts of an accepted input.
struct Input<'a> {
    first: &'a [u8],
    second: &'a [u8],
    /// The count of events and the events.
    events: &'a [u8],
}

impl Input<'_> {
    fn of(bytes: &[u8]) -> Input<'_> {
        let (first, rest) = bytes.split_at(Setup::read(bytes).1);
        let (second, events) = rest.split_at(Setup::read(rest).1);
        Input {
            first,
            second,
            events,
        }
    }

    fn count(&self) -> usize {
        (self.events.len() - WORD) / (WORD * EVENT_WORDS)
    }

    fn five(&self, number: u32) -> Five {
        let start = WORD + WORD * EVENT_WORDS * (number as usize - 1);
        run::five(&self.events[start..])
    }
}

/// The input of two accepted runs: the first with the second's setup behind its own.
pub fn input(run: &[u8], new: &[u8]) -> Vec<u8> {
    let (setup, events) = run.split_at(Setup::read(run).1);
    let (second, _) = new.split_at(Setup::read(new).1);
    [setup, second, events].concat()
}

/// The page of an input; or its fault.
pub fn page(name: &str, bytes: &[u8]) -> Result<String, BadRun> {
    let mut text = vec![0; TEXT];
    let long = compare::compare(bytes, &mut text).expect("there is room for any text");
    let text = String::from_utf8_lossy(&text[..long]);
    if let Some(bad) = run::bad(text.trim_end()) {
        return Err(bad);
    }
    let input = Input::of(bytes);
    let changes = changes(&input, &text);
    let title = format!("What the second setup changes: {name}");
    let body = format!(
        "<h1>{}</h1>\n<p>{} of {} events differ</p>\n{}<h2>The setups</h2>\n{}{}{}",
        escaped(&title),
        changes.len(),
        input.count(),
        strip(&changes, input.count()),
        setups(&Setup::read(input.first).0, &Setup::read(input.second).0),
        pictures(&input),
        table(&changes),
    );
    Ok(html::page(&title, include_str!("tables.css"), &body))
}

fn changes(input: &Input, text: &str) -> Vec<Change> {
    let answers: Vec<(u32, Answer)> = text.lines().filter_map(run::answer).collect();
    let change = |pair: &[(u32, Answer)]| Change {
        number: pair[0].0,
        five: input.five(pair[0].0),
        first: pair[0].1,
        second: pair[1].1,
    };
    answers.chunks_exact(2).map(change).collect()
}

/// Where along the run the events differ.
fn strip(changes: &[Change], count: usize) -> String {
    let mut differs = vec![0; count];
    for change in changes {
        differs[change.number as usize - 1] = 1;
    }
    let marked = spans(differs.into_iter());
    let bars = marked.iter().filter(|span| span.value == 1);
    let path: String = bars
        .map(|span| format!("M{} 0H{}V1H{}z", span.from, span.to, span.from))
        .collect();
    format!(
        "<svg class=\"strip\" viewBox=\"0 0 {} 1\" preserveAspectRatio=\"none\"><title>the run from its first event to its last; marked are those that differ</title>\
         <path class=\"s5\" d=\"{path}\"/></svg>\n",
        count.max(1)
    )
}

fn setups(first: &Setup, second: &Setup) -> String {
    let mut rows = String::new();
    for section in Section::ALL {
        let (left, right) = (
            writer::section_lines(first, section),
            writer::section_lines(second, section),
        );
        for line in 0..left.len().max(right.len()) {
            let (left, right) = (left.get(line), right.get(line));
            let class = if left == right {
                ""
            } else {
                " class=\"changed\""
            };
            let written = |line: Option<&String>| line.map_or(String::new(), |line| escaped(line));
            rows += &format!(
                "<tr{class}><td class=\"mono\">{}</td><td class=\"mono second\">{}</td></tr>\n",
                written(left),
                written(right)
            );
        }
    }
    format!("<table class=\"plain\">\n<tr><th>first setup</th><th class=\"second\">second setup</th></tr>\n{rows}</table>\n")
}

fn table(changes: &[Change]) -> String {
    if changes.is_empty() {
        return String::new();
    }
    let rows: String = changes.iter().map(row).collect();
    format!(
        "<h2>Events that differ</h2>\n<table class=\"plain\">\n<tr><th>event</th><th></th><th>first setup</th><th></th><th></th>\
         <th class=\"second\">second setup</th><th></th><th></th></tr>\n{rows}</table>\n"
    )
}

/// Code, running task and the rest of both answers; what differs is marked.
fn row(change: &Change) -> String {
    let first = words::parts(change.five, change.first);
    let second = words::parts(change.five, change.second);
    let cells = |own: &[String; 3], other: &[String; 3], side: &str| -> String {
        let cell = |(place, said): (usize, &String)| {
            let changed = if *said == other[place] {
                ""
            } else {
                "changed "
            };
            let side = if place == 0 { side } else { "" };
            format!("<td class=\"{changed}{side}\">{}</td>", escaped(said))
        };
        own.iter().enumerate().map(cell).collect()
    };
    format!(
        "<tr><td>{}</td><td class=\"mono\">{}</td>{}{}</tr>\n",
        change.number,
        escaped(&words::brief(change.five)),
        cells(&first, &second, ""),
        cells(&second, &first, "second")
    )
}

/// The run from each setup.
fn pictures(input: &Input) -> String {
    let mut out = String::new();
    for (name, setup) in [
        ("From the first setup", input.first),
        ("From the second setup", input.second),
    ] {
        let bytes = [setup, input.events].concat();
        if let Ok(picture) = Picture::of(name, &bytes, Range::default()) {
            out += &format!(
                "<h2></h2>\n<div class=\"scrolls\">\n{}</div>\n",
                svg::alone(&picture)
            );
        }
    }
    out
}

#[cfg(test)]
mod tests {
    use super::*;
    use crate::samples;
    use okrozumba::Fault;

    fn shipped(name: &str) -> Vec<u8> {
        let inputs = samples::files("examples/compare", "run");
        let found = inputs.into_iter().find(|input| input.name.ends_with(name));
        found.expect("it is shipped").bytes
    }

    #[test]
    fn the_shipped_example() {
        let page = page("night", &shipped("changed_priority.run")).expect("it is accepted");
        assert!(page.contains("<p>3 of 5 events differ</p>"));
        assert!(page.contains(
            "<tr class=\"changed\"><td class=\"mono\">task 3       priority 1  dormant</td>"
        ));
        assert!(page.contains("<td>3</td><td class=\"mono\">X&gt;sta_tsk(3)</td>"));
    }

    #[test]
    fn two_runs_are_an_input() {
        let whole = shipped("changed_priority.run");
        let Input {
            first,
            second,
            events,
        } = Input::of(&whole);
        let run = [first, events].concat();
        let new = [second, &[0; WORD]].concat();
        assert_eq!(input(&run, &new), whole);
    }

    #[test]
    fn equal_setups_and_refusals() {
        let equal = page("", &shipped("equal_setups.run")).expect("it is accepted");
        assert!(equal.contains("<p>0 of "));
        assert!(page("", &shipped("no_events.run")).is_ok());
        let refused = page("", &shipped("refused_2_events.run")).unwrap_err();
        assert_eq!(refused.fault, Fault::S2);
    }
}
