//! The header's numbers are those of the definitions that the contracts cite: calls by the rules' table, codes by their own definition, and
//! the sizes and answers below.
use crate::lookup::Repository;
use crate::{problem, Report};

const CODES: &str = "rules/specs/Codes.antt";
const TABLE: &str = "rules/specs/Table.antt";
const LAYOUT: &str = "memory_columns/specs/Layout.antt";
const MONTHLY: &str = "run_month/specs/Monthly.antt";
const BATCHES: &str = "kernel_batches/specs/Batches.antt";
const LIGHTS: &str = "brightness_light/specs/Lights.antt";
const CURVES: &str = "export_numbers/specs/Brightness.antt";
const SETUP: &str = "rules/specs/Setup.antt";
const TASKS: &str = "rules/specs/Tasks.antt";
const RECORDING: &str = "run_recorder/specs/Recording.antt";

/// A name of the header, a file, and the left side of the clause there that has the number.
const NUMBERS: [(&str, &str, &str); 34] = [
    ("STATE_WORDS", LAYOUT, "state_words"),
    ("MESSAGES", LAYOUT, "max_messages"),
    ("HELD", "run_reading/specs/Recorded.antt", "head_bytes"),
    ("LINE", "run_text/specs/Lines.antt", "longest_line"),
    ("TASKS", "run_figures/specs/Figures.antt", "most_tasks"),
    ("STATES", "run_tally/specs/Tables.antt", "states"),
    ("COUNTS", MONTHLY, "counts"),
    ("RECORDS", MONTHLY, "most_records"),
    (
        "COMPARE_TEXT",
        "run_compare_text/specs/Output.antt",
        "longest_text",
    ),
    ("DORMANT", TASKS, "state_number dormant run"),
    ("WAIT", TASKS, "state_number (waiting w) run"),
    ("SUSPEND", TASKS, "state_number suspended run"),
    (
        "WAIT_SUSPEND",
        TASKS,
        "state_number (waiting_suspended w) run",
    ),
    ("ABSENT", TASKS, "state_number absent run"),
    ("S1", SETUP, "digit S1"),
    ("S2", SETUP, "digit S2"),
    ("S3", SETUP, "digit S3"),
    ("S4", SETUP, "digit S4"),
    ("TAKEN", RECORDING, "taken"),
    ("CLOSED", RECORDING, "S5"),
    ("FULL", RECORDING, "full"),
    ("RAGGED", BATCHES, "batch_number (Err Ragged)"),
    ("FEW_CODES", BATCHES, "batch_number (Err FewCodes)"),
    ("FEW_WORDS", BATCHES, "batch_number (Err FewWords)"),
    ("T1", MONTHLY, "digit (Err Many)"),
    ("T2", MONTHLY, "digit (Err Size)"),
    ("T3", MONTHLY, "digit (Err Beyond)"),
    ("GOOD_CURVE", CURVES, "judged_number (Ok u)"),
    ("BAD_CURVE", CURVES, "judged_number (Err k)"),
    ("LIGHT_SET", LIGHTS, "news_number Set"),
    ("LIGHT_WAITS", LIGHTS, "news_number Waits"),
    ("LIGHT_STAYS", LIGHTS, "news_number Stays"),
    ("LIGHT_NO_SLOT", LIGHTS, "news_number NoSlot"),
    ("LIGHT_BAD_CURVE", LIGHTS, "news_number (BadCurve k)"),
];

/// Each number beside its definition's.
pub fn check(repository: &Repository) -> Report {
    let wanted = wanted(repository);
    let (file, text) = repository.header();
    let problems = wanted.iter().filter_map(|(name, number, from)| {
        let found = text
            .lines()
            .enumerate()
            .find_map(|(i, l)| Some((i + 1, number_of(l, name)?)));
        match (found, number) {
            (Some((_, n)), Some(m)) if n == *m => None,
            (Some((line, n)), Some(m)) => Some(problem(
                &file,
                line,
                format!("OKROZUMBA_{name} is {n}, and {m} in {from}"),
            )),
            (None, _) => Some(problem(
                &file,
                1,
                format!("there is no OKROZUMBA_{name}, which {from} has"),
            )),
            (_, None) => Some(problem(
                from,
                1,
                format!("has no number for OKROZUMBA_{name}"),
            )),
        }
    });
    let problems: Vec<_> = problems.collect();
    let summary = format!(
        "header: {} numbers compared, {} not the definition's",
        wanted.len(),
        problems.len()
    );
    Report { summary, problems }
}

/// Names of the header with their numbers by the definitions, and the files of these.
fn wanted(repository: &Repository) -> Vec<(String, Option<i64>, String)> {
    let read = |file: &str| {
        repository
            .read(&format!("crates/{file}"))
            .unwrap_or_default()
    };
    let mut found: Vec<_> = NUMBERS
        .iter()
        .map(|(name, file, clause)| {
            (
                name.to_string(),
                clause_number(&read(file), clause),
                file.to_string(),
            )
        })
        .collect();
    found.extend(
        codes(&read(CODES))
            .into_iter()
            .map(|(n, v)| (n, v, CODES.to_string())),
    );
    found.extend(
        calls(&read(TABLE))
            .into_iter()
            .map(|(n, v)| (n, v, TABLE.to_string())),
    );
    found
}

/// `number E-RLWAI = minus 3414` and the others.
fn codes(text: &str) -> Vec<(String, Option<i64>)> {
    let clauses = text
        .lines()
        .filter_map(|l| l.strip_prefix("number ")?.split_once(" = "));
    let named = clauses.map(|(name, right)| {
        let name = if name == "OK" {
            "E_OK".to_string()
        } else {
            name.replace('-', "_")
        };
        (name, value(right))
    });
    named.collect()
}

/// The rows of the table, from 1: `sta_tsk_row v a` is STA_TSK.
fn calls(text: &str) -> Vec<(String, Option<i64>)> {
    let rows = text
        .lines()
        .skip_while(|l| !l.starts_with("table v "))
        .skip(1)
        .take_while(|l| !l.trim().ends_with("[]"));
    let names = rows.filter_map(|l| l.trim().trim_start_matches('∷').split_whitespace().next());
    names
        .enumerate()
        .map(|(i, name)| (call_of(name), Some(i as i64 + 1)))
        .collect()
}

/// The header's name of a row's call.
fn call_of(row: &str) -> String {
    row.strip_suffix("_row").unwrap_or(row).to_uppercase()
}

/// The number of a line of the header that defines the name.
fn number_of(line: &str, name: &str) -> Option<i64> {
    let rest = line.trim().strip_prefix("#define ").unwrap_or(line.trim());
    let rest = rest.strip_prefix("OKROZUMBA_")?.strip_prefix(name)?;
    let rest = rest.strip_prefix(" = ").or(rest.strip_prefix(' '))?;
    rest.split([',', ' ']).next()?.parse().ok()
}

fn clause_number(text: &str, clause: &str) -> Option<i64> {
    let right = text
        .lines()
        .find_map(|l| l.strip_prefix(clause)?.strip_prefix(" = "))?;
    value(right)
}

/// A number, `pos 1`, `minus 3414`, `said 5 0`: the first number, negative behind `minus`.
fn value(right: &str) -> Option<i64> {
    let number: i64 = right.split_whitespace().find_map(|w| w.parse().ok())?;
    Some(if right.starts_with("minus") {
        -number
    } else {
        number
    })
}
