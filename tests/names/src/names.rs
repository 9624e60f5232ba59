//! Each name of the documents is looked up, and what docs/TRACE.md must name is looked for in its rows.
use crate::document::{self, Reference};
use crate::inventory;
use crate::lookup::Repository;
use crate::{problem, Problem, Report};

/// The documents whose references are looked up. The rows of the first one must name all that the inventory has.
const DOCUMENTS: [&str; 3] = ["docs/TRACE.md", "docs/AUDIT.md", "docs/BELIEVE.md"];

pub fn check(repository: &Repository) -> Report {
    let mut problems = Vec::new();
    let mut names = 0;
    let mut things = 0;
    for file in DOCUMENTS {
        let text = repository.read(file).unwrap_or_default();
        let references = document::references(&text);
        names += look_up(repository, file, &references, &mut problems);
        if file == DOCUMENTS[0] {
            things = look_for(repository, file, &references, &mut problems);
        }
    }
    let summary = format!(
        "names: {names} looked up, {things} that must be named, {} wrong or missing",
        problems.len()
    );
    Report { summary, problems }
}

/// Each reference of a document leads somewhere; how many do.
fn look_up(
    repository: &Repository,
    file: &str,
    references: &[Reference],
    problems: &mut Vec<Problem>,
) -> usize {
    if references.is_empty() {
        problems.push(problem(file, 1, "names nothing".to_string()));
    }
    let mut found = 0;
    for reference in references {
        match repository.find(&reference.text) {
            Ok(true) => found += 1,
            Ok(false) => {}
            Err(why) => problems.push(problem(
                file,
                reference.line,
                format!("`{}`: {why}", reference.text),
            )),
        }
    }
    found
}

/// Each thing that must be named stands in some row of the document; how many things there are.
fn look_for(
    repository: &Repository,
    file: &str,
    references: &[Reference],
    problems: &mut Vec<Problem>,
) -> usize {
    let things = inventory::all(repository);
    for thing in &things {
        if !references.iter().any(|r| r.in_row && r.text == thing.name) {
            let what = format!("no row names `{}` ({file})", thing.name);
            problems.push(problem(&thing.file, thing.line, what));
        }
    }
    things.len()
}
