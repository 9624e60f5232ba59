//! What the rows of docs/TRACE.md must name: public functions, exports, calls, codes and must-fail edits.
use std::collections::BTreeSet;

use crate::lookup::Repository;
use crate::source;

/// As a document writes it, and where it stands.
pub struct Thing {
    pub name: String,
    pub file: String,
    pub line: usize,
}

pub fn all(repository: &Repository) -> Vec<Thing> {
    let mut things = listed(repository);
    things.extend(functions(repository));
    things.extend(edits(repository));
    things
}

/// What the header lists: exports, calls as `1 sta_tsk`, codes as `-3414 E_RLWAI`.
pub fn listed(repository: &Repository) -> Vec<Thing> {
    let (file, text) = repository.header();
    let mut things = Vec::new();
    let mut section = "";
    for (i, line) in text.lines().enumerate() {
        if let Some(head) = line.strip_prefix("/* ") {
            section = head;
        }
        let name = source::exported(line)
            .map(str::to_string)
            .or_else(|| numbered(section, line));
        if let Some(name) = name {
            things.push(Thing {
                name,
                file: file.clone(),
                line: i + 1,
            });
        }
    }
    things
}

/// A line of the header's two lists of numbers: the calls, and the codes.
fn numbered(section: &str, line: &str) -> Option<String> {
    let (name, rest) = line.trim().strip_prefix("OKROZUMBA_")?.split_once(" = ")?;
    let number = rest.split([',', ' ']).next()?;
    if section.starts_with("The calls") {
        Some(format!("{number} {}", name.to_lowercase()))
    } else if section.starts_with("An event with a negative code") {
        Some(format!("{number} {name}"))
    } else {
        None
    }
}

/// Every public function of the crates that README's table of functions names.
fn functions(repository: &Repository) -> Vec<Thing> {
    let mut things = Vec::new();
    for of in crates_of_readme(repository) {
        for file in repository.files(&format!("crates/{of}/src/"), ".rt") {
            let text = repository.read(&file).unwrap_or_default();
            for (i, line) in text.lines().enumerate() {
                if let Some(name) = source::public_function(line) {
                    things.push(Thing {
                        name: format!("{}:{name}", file.trim_start_matches("crates/")),
                        file: file.clone(),
                        line: i + 1,
                    });
                }
            }
        }
    }
    things
}

fn crates_of_readme(repository: &Repository) -> BTreeSet<String> {
    let text = repository.read("README.md").unwrap_or_default();
    let rows = text.lines().filter(|l| l.starts_with('|'));
    let paths = rows
        .flat_map(|l| l.split('`').skip(1).step_by(2))
        .filter_map(|span| span.split_once("::"));
    paths.map(|(of, _)| of.to_string()).collect()
}

/// Every must-fail edit, as `crate/edit`.
fn edits(repository: &Repository) -> Vec<Thing> {
    let files = repository.files("crates/", ".edit");
    let named = files.into_iter().filter_map(|file| {
        let (of, edit) = file.strip_prefix("crates/")?.split_once("/must-fail/")?;
        let name = format!("{of}/{}", edit.strip_suffix(".edit")?);
        Some(Thing {
            name,
            file,
            line: 1,
        })
    });
    named.collect()
}
