//! The documents and the header are held to the repository's files: what docs/TRACE.md, docs/AUDIT.md and docs/BELIEVE.md name is there, and
//! what must be named is (`names`); the header's numbers are those of the definitions (`header`); no bound of a stack is too small
//! (`stack`). It reads files and runs nothing but objdump.
mod document;
mod header;
mod inventory;
mod lookup;
mod names;
mod source;
mod stack;

use std::fmt;
use std::path::Path;

use lookup::Repository;

/// What is wrong, and where.
pub struct Problem {
    pub file: String,
    pub line: usize,
    pub what: String,
}

impl fmt::Display for Problem {
    fn fmt(&self, f: &mut fmt::Formatter) -> fmt::Result {
        write!(f, "{}:{}: {}", self.file, self.line, self.what)
    }
}

fn problem(file: &str, line: usize, what: String) -> Problem {
    Problem {
        file: file.to_string(),
        line,
        what,
    }
}

/// What was looked at, in a line, and what is wrong.
pub struct Report {
    pub summary: String,
    pub problems: Vec<Problem>,
}

/// Of the repository at `root`.
pub fn check(root: &Path) -> Vec<Report> {
    let repository = Repository::at(root);
    vec![
        names::check(&repository),
        header::check(&repository),
        stack::check(root),
    ]
}

#[cfg(test)]
mod tests;
