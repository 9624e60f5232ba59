//! The figures of many runs as a page: a heat map of tasks by states, and the codes as bars.
use okrozumba::figures::{self, Counter, NoReport, Record, CODES, COUNTS, RECORDS, STATES, TASKS};
use okrozumba::recorder::{BadRun, Said};
use okrozumba::{Code, TaskState};

use crate::html::{self, escaped};
use crate::picture::palette::STATE;
use crate::run;

/// A run that was counted.
pub struct Counted {
    pub name: String,
    record: Record,
    pub refusal: Option<BadRun>,
}

impl Counted {
    /// Counts a run; of one that is refused on its way, the events before.
    pub fn of(name: &str, bytes: &[u8]) -> Counted {
        let mut counter = Counter::new();
        let said = match counter.part(bytes) {
            Said::Refused(bad) => Said::Refused(bad),
            _ => counter.end(),
        };
        let refusal = match said {
            Said::Refused(bad) => Some(bad),
            _ => None,
        };
        Counted {
            name: name.to_string(),
            record: counter.record(),
            refusal,
        }
    }

    fn events(&self) -> u64 {
        total(&self.record.counts[TASKS * STATES..])
    }
}

fn total(counts: &[u32]) -> u64 {
    counts.iter().copied().map(u64::from).sum()
}

/// The page of a month; or why there is no report.
pub fn page(runs: &[Counted]) -> Result<String, String> {
    let records: Vec<Record> = runs.iter().map(|run| run.record).collect();
    let mut totals = [0; COUNTS];
    figures::month(&records, &mut totals).map_err(no_report)?;
    let (table, codes) = totals.split_at(TASKS * STATES);
    let title = match runs {
        [run] => format!("Figures of {}", run.name),
        _ => format!("Figures of {} runs", runs.len()),
    };
    let body = format!(
        "<h1>{}</h1>\n<p>{} events</p>\n<h2>After how many events each task was in each state</h2>\n{}\
         <h2>How often each code came back</h2>\n{}<h2>Runs</h2>\n{}",
        escaped(&title),
        total(codes),
        heat_map(table),
        bars(codes),
        list(runs),
    );
    Ok(html::page(&title, include_str!("tables.css"), &body))
}

fn no_report(why: NoReport) -> String {
    match why {
        NoReport::T1 => format!("{why}: a month has at most {RECORDS} runs"),
        _ => why.to_string(),
    }
}

fn heat_map(table: &[u32]) -> String {
    let mut head = String::from("<tr><th></th>");
    for (name, colour) in TaskState::ALL.iter().zip(&STATE) {
        let class = colour.class;
        head += &format!("<th><svg width=\"10\" height=\"10\"><rect class=\"{class}\" width=\"10\" height=\"10\"/></svg> {name}</th>");
    }
    let rows = table.chunks_exact(STATES).enumerate();
    let is_there = |(_, row): &(usize, &[u32])| total(row) > 0;
    let rows: String = rows
        .filter(is_there)
        .map(|(place, row)| heat_row(place + 1, row))
        .collect();
    format!("<table class=\"heat\">\n{head}<th>events</th></tr>\n{rows}</table>\n")
}

/// A task's row; a cell is the darker the more of the events it has.
fn heat_row(task: usize, row: &[u32]) -> String {
    let events = total(row);
    let mut out = format!("<tr><th>task {task}</th>");
    for count in row {
        let share = f64::from(*count) / events as f64;
        out += &match count {
            0 => "<td class=\"none\">0</td>".to_string(),
            _ => heat_cell(*count, share),
        };
    }
    out + &format!("<td>{events}</td></tr>\n")
}

fn heat_cell(count: u32, share: f64) -> String {
    const PALE: f64 = 0.08;
    let depth = PALE + (1.0 - PALE) * share;
    let class = contrast(depth);
    let percent = 100.0 * share;
    format!(
        "<td{class} style=\"background:rgba(var(--heat),{depth:.2})\" title=\"{percent:.1} % of the task's events\">{count}</td>"
    )
}

/// On a deep ground the number has the paper's colour: earlier in the dark scheme, whose colour is the brighter.
fn contrast(depth: f64) -> &'static str {
    match depth {
        depth if depth > 0.8 => " class=\"deepest\"",
        depth if depth > 0.65 => " class=\"deep\"",
        _ => "",
    }
}

fn bars(counts: &[u32]) -> String {
    let most = counts.iter().copied().max().unwrap_or(0).max(1);
    let mut rows = String::new();
    let mut never = Vec::new();
    for (code, count) in CODES.iter().zip(counts) {
        let name = Code::of(*code);
        if *count == 0 {
            never.push(name.to_string());
            continue;
        }
        let kind = if *code < 0 { "refused" } else { "done" };
        let width = 100.0 * f64::from(*count) / f64::from(most);
        rows += &format!(
            "<tr><th>{name}</th><td>{code}</td><td>{count}</td><td class=\"bar\"><div class=\"{kind}\" style=\"width:{width:.2}%\"></div></td></tr>\n"
        );
    }
    let rest = if never.is_empty() {
        String::new()
    } else {
        format!("<p>Never: {}</p>\n", never.join(", "))
    };
    format!("<table class=\"bars\">\n{rows}</table>\n{rest}")
}

fn list(runs: &[Counted]) -> String {
    let row = |run: &Counted| {
        let refusal = run
            .refusal
            .map_or(String::new(), |bad| escaped(&run::refusal(bad)));
        let name = escaped(&run.name);
        format!(
            "<tr><th>{name}</th><td>{}</td><td class=\"alert-text\">{refusal}</td></tr>\n",
            run.events()
        )
    };
    let rows: String = runs.iter().map(row).collect();
    format!(
        "<table class=\"plain\">\n<tr><th>file</th><th>events</th><th></th></tr>\n{rows}</table>\n"
    )
}

#[cfg(test)]
mod tests {
    use super::*;
    use crate::samples;

    #[test]
    fn numbers_are_the_records() {
        let runs: Vec<Counted> = samples::shipped()
            .iter()
            .map(|run| Counted::of(&run.name, &run.bytes))
            .collect();
        let page = page(&runs).expect("few enough");
        let mixed = runs
            .iter()
            .find(|run| run.name.ends_with("mixed.run"))
            .expect("it is shipped");
        assert_eq!(mixed.events(), 394);
        let all: u64 = runs.iter().map(Counted::events).sum();
        assert!(page.contains(&format!("<p>{all} events</p>")));
        let ready: u32 = runs
            .iter()
            .filter_map(|run| run.record.in_state(1, 1))
            .sum();
        let row = page
            .lines()
            .find(|line| line.contains("<th>task 1</th>"))
            .expect("task 1 has a row");
        assert!(row
            .split("<td")
            .nth(2)
            .is_some_and(|cell| cell.ends_with(&format!(">{ready}</td>"))));
        let polls: u32 = runs.iter().filter_map(|run| run.record.of_code(-5)).sum();
        assert!(page.contains(&format!("<th>H_POLL</th><td>-5</td><td>{polls}</td>")));
    }

    #[test]
    fn too_many_runs() {
        let runs: Vec<Counted> = (0..=RECORDS).map(|_| Counted::of("none", &[])).collect();
        assert!(page(&runs).is_err_and(|why| why.starts_with("T1")));
        assert!(page(&runs[1..]).is_ok());
        assert!(runs[0].refusal.is_some());
    }
}
