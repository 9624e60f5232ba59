//! The references of a document: what stands in backticks, with its line.

/// `:name` is written out: it is of the file named last in the same row, list item or paragraph.
#[derive(Debug, PartialEq)]
pub struct Reference {
    pub text: String,
    pub line: usize,
    pub in_row: bool,
}

/// Of a whole document. Lines of code (four blanks) hold none.
pub fn references(text: &str) -> Vec<Reference> {
    let mut found = Vec::new();
    let mut file = String::new();
    let mut within: Option<(String, usize)> = None;
    for (i, line) in text.lines().enumerate() {
        if begins_block(line) {
            file.clear();
            within = None;
        }
        if line.starts_with("    ") {
            continue;
        }
        for (k, piece) in line.split('`').enumerate() {
            if k > 0 {
                within = match within {
                    None => Some((String::new(), i + 1)),
                    Some((span, at)) => {
                        found.push(reference(&span, at, line, &mut file));
                        None
                    }
                };
            }
            if let Some((span, _)) = &mut within {
                span.push_str(piece);
            }
        }
        if let Some((span, _)) = &mut within {
            span.push(' ');
        }
    }
    found
}

/// A row, a list item, a heading or an empty line: what comes before is no part of it.
fn begins_block(line: &str) -> bool {
    let text = line.trim_start();
    text.is_empty() || text.starts_with(['|', '#']) || text.starts_with("- ")
}

fn reference(span: &str, line: usize, whole: &str, file: &mut String) -> Reference {
    let span = span.trim();
    let text = if span.starts_with(':') && !span.starts_with("::") {
        format!("{file}{span}")
    } else {
        span.to_string()
    };
    if let Some((path, _)) = split_name(&text) {
        *file = path.to_string();
    }
    Reference {
        text,
        line,
        in_row: whole.starts_with('|'),
    }
}

/// `crate/folder/File.antt:name` as its path and its name.
pub fn split_name(text: &str) -> Option<(&str, &str)> {
    let (path, name) = text.split_once(':')?;
    (path.contains('/') && path.contains('.') && !name.is_empty() && !name.starts_with(':'))
        .then_some((path, name))
}
