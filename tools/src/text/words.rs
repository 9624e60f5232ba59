//! Events and answers in words.
use okrozumba::{context, Answer, Code};

use crate::calls::{self, Call};
use crate::run::Five;

/// Who calls, as the text form has it.
pub const TASK: &str = "X";
pub const HANDLER: &str = "H";
/// Events that are no calls, with their kinds.
pub const PLAIN: [(&str, i32); 3] = [
    ("tick", context::TICK),
    ("entry", context::ENTRY),
    ("return", context::RETURN),
];
/// Five words that are no event of the kernel.
pub const ANY: &str = "event";
/// Before words that do not count.
pub const UNUSED: &str = "unused";

/// An event as the text form has it.
pub fn event(five: Five) -> String {
    brief(five) + &unused(rest(&five))
}

/// An event without the words that do not count.
pub fn brief(five: Five) -> String {
    let [kind, number, words @ ..] = five;
    match (kind, plain(kind)) {
        (_, Some(name)) => name.to_string(),
        (context::TASK, _) => format!("{TASK}>{}", call(number, words)),
        (context::HANDLER, _) => format!("{HANDLER}>{}", call(number, words)),
        _ => format!("{ANY} {}", decimal(&five, " ")),
    }
}

fn plain(kind: i32) -> Option<&'static str> {
    let found = PLAIN.iter().find(|(_, plain)| *plain == kind);
    found.map(|(name, _)| *name)
}

/// The words of an event that do not count.
fn rest(five: &Five) -> &[i32] {
    let [kind, number, words @ ..] = five;
    match (*kind, calls::by_number(*number)) {
        (context::TASK | context::HANDLER, Some(call)) => &words[call.takes.len()..],
        (kind, _) if plain(kind).is_some() => &five[1..],
        _ => &[],
    }
}

fn call(number: i32, words: [i32; 3]) -> String {
    match calls::by_number(number) {
        Some(call) => call.name.to_string() + &arguments(call, &words[..call.takes.len()]),
        None => format!("{number}({})", decimal(&words, ", ")),
    }
}

fn arguments(call: &Call, words: &[i32]) -> String {
    if words.is_empty() {
        return String::new();
    }
    let written = call.takes.iter().zip(words);
    let written: Vec<String> = written.map(|(word, value)| word.written(*value)).collect();
    format!("({})", written.join(", "))
}

/// Words that do not count; none are written if all are 0.
fn unused(words: &[i32]) -> String {
    if words.iter().all(|word| *word == 0) {
        return String::new();
    }
    format!(" {UNUSED} {}", decimal(words, " "))
}

fn decimal(words: &[i32], between: &str) -> String {
    let written: Vec<String> = words.iter().map(i32::to_string).collect();
    written.join(between)
}

/// Who runs.
pub fn runs(task: u32) -> String {
    match task {
        0 => "runs none".to_string(),
        task => format!("runs {task}"),
    }
}

/// What an answer gives beside its code and the running task: the call's words, and how many were released.
pub fn given(five: Five, answer: Answer) -> String {
    let mut said = Vec::new();
    let [kind, number, ..] = five;
    if matches!(kind, context::TASK | context::HANDLER) && answer.code() == Code::E_OK {
        if let Some(call) = calls::by_number(number) {
            said.push(call.gives.written(answer.w1, answer.w2));
        }
    }
    if answer.released > 0 {
        said.push(format!("releases {}", answer.released));
    }
    said.retain(|word| !word.is_empty());
    said.join(", ")
}

/// An answer in parts: code, running task, what else is given.
pub fn parts(five: Five, answer: Answer) -> [String; 3] {
    [
        answer.code().to_string(),
        runs(answer.running),
        given(five, answer),
    ]
}

/// An answer in a line, its parts below those of the line before.
pub fn answer(five: Five, answer: Answer) -> String {
    let [code, runs, given] = parts(five, answer);
    let line = format!("{code:<8}  {runs:<9}  {given}");
    line.trim_end().to_string()
}

#[cfg(test)]
mod tests {
    use super::*;

    #[test]
    fn calls() {
        assert_eq!(event([0, 1, 3, 0, 0]), "X>sta_tsk(3)");
        assert_eq!(event([0, 9, 0, 0, 0]), "X>slp_tsk");
        assert_eq!(event([1, 18, 1, 3, 2]), "H>wai_flg(1, 0x3, all+clear)");
        assert_eq!(event([0, 10, -1, 0, 0]), "X>wai_tsk(forever)");
        assert_eq!(event([0, 37, 1, 10, 0]), "X>set_rel(1, 10, once)");
    }

    #[test]
    fn no_calls() {
        assert_eq!(event([2, 0, 0, 0, 0]), "tick");
        assert_eq!(event([4, -3, 2, 0, 4]), "return unused -3 2 0 4");
        assert_eq!(event([0, 40, 1, 0, 0]), "X>40(1, 0, 0)");
        assert_eq!(event([0, 13, 1, 0, 7]), "X>sig_sem(1) unused 0 7");
        assert_eq!(brief([0, 13, 1, 0, 7]), "X>sig_sem(1)");
        assert_eq!(event([-5, 0, 0, 0, 1]), "event -5 0 0 0 1");
    }

    #[test]
    fn answers() {
        let waits = Answer {
            code: 1,
            running: 2,
            ..Answer::default()
        };
        assert_eq!(answer([0, 14, 1, 0, 0], waits), "WAITS     runs 2");
        let block = Answer {
            w1: 2,
            running: 1,
            ..Answer::default()
        };
        assert_eq!(
            answer([0, 24, 1, 0, 0], block),
            "E_OK      runs 1     block 2"
        );
        let woken = Answer {
            running: 0,
            released: 1,
            ..Answer::default()
        };
        assert_eq!(
            answer([2, 0, 0, 0, 0], woken),
            "E_OK      runs none  releases 1"
        );
    }
}
