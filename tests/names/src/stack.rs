//! How much of the stack each export takes at most: the frames in the archive's code, added up along every path of calls. docs/BELIEVE.md
//! states a bound for each, and no bound may be too small.
use std::collections::BTreeMap;
use std::path::Path;
use std::process::Command;

use crate::{problem, Problem, Report};

const ARCHIVE: &str = "crates/okrozumba/out/libokrozumba.a";
const DOCUMENT: &str = "docs/BELIEVE.md";

/// A call leaves its return address there.
const ADDRESS: usize = 8;

/// What a function has below its return address, and whom it calls.
#[derive(Default)]
struct Frame {
    deepest: usize,
    calls: Vec<String>,
}

/// Each bound beside the frames; nothing where there is no archive to look at.
pub fn check(root: &Path) -> Report {
    let archive = root.join(ARCHIVE);
    let listing = archive.exists().then(|| {
        Command::new("objdump")
            .args(["-dr", "--no-show-raw-insn"])
            .arg(archive)
            .output()
    });
    let Some(Ok(listing)) = listing else {
        return Report {
            summary: "stack: no archive or no objdump, so nothing was measured".to_string(),
            problems: Vec::new(),
        };
    };
    let document = std::fs::read_to_string(root.join(DOCUMENT)).unwrap_or_default();
    let (exports, problems) = compare(&String::from_utf8_lossy(&listing.stdout), &document);
    let summary = format!(
        "stack: {exports} exports measured, {} beyond the bound that is stated",
        problems.len()
    );
    Report { summary, problems }
}

/// A listing held to a document's table: how many exports there are, and what is wrong.
pub fn compare(listing: &str, document: &str) -> (usize, Vec<Problem>) {
    let frames = match frames(listing) {
        Ok(frames) => frames,
        Err(why) => return (0, vec![problem(ARCHIVE, 1, why)]),
    };
    let bounds = bounds(document);
    let exports: Vec<&String> = frames
        .keys()
        .filter(|n| n.starts_with("okrozumba_"))
        .collect();
    let problems = exports.iter().filter_map(|name| {
        let takes = match need(&frames, name, 0) {
            Ok(takes) => takes + ADDRESS,
            Err(why) => return Some(problem(ARCHIVE, 1, why)),
        };
        match bounds.get(*name) {
            Some((line, bound)) if *bound < takes => Some(problem(
                DOCUMENT,
                *line,
                format!("{name} takes {takes} bytes of the stack, not at most {bound}"),
            )),
            Some(_) => None,
            None => Some(problem(
                DOCUMENT,
                1,
                format!("no bound for the stack of {name}, which takes {takes} bytes"),
            )),
        }
    });
    (exports.len(), problems.collect())
}

/// The bounds of a document's rows, each with its line: names in one cell, the number in the next.
fn bounds(document: &str) -> BTreeMap<String, (usize, usize)> {
    let mut found = BTreeMap::new();
    for (i, line) in document
        .lines()
        .enumerate()
        .filter(|(_, l)| l.starts_with('|'))
    {
        let cells: Vec<&str> = line.split('|').collect();
        for pair in cells.windows(2) {
            let number: String = pair[1].chars().filter(char::is_ascii_digit).collect();
            if let Ok(bound) = number.parse() {
                for name in pair[0].split('`').filter(|n| n.starts_with("okrozumba_")) {
                    found.insert(name.to_string(), (i + 1, bound));
                }
            }
        }
    }
    found
}

/// The deepest path below a function. No function calls itself, so no path is longer than there are functions.
fn need(frames: &BTreeMap<String, Frame>, name: &str, depth: usize) -> Result<usize, String> {
    if depth > frames.len() {
        return Err(format!("{name} calls itself"));
    }
    let Some(frame) = frames.get(name) else {
        return Ok(0); // of the C library
    };
    let mut most = 0;
    for callee in &frame.calls {
        most = most.max(ADDRESS + need(frames, callee, depth + 1)?);
    }
    Ok(frame.deepest + most)
}

/// The frames of a listing by objdump.
fn frames(listing: &str) -> Result<BTreeMap<String, Frame>, String> {
    let mut found: BTreeMap<String, Frame> = BTreeMap::new();
    let mut name = String::new();
    let mut depth = 0;
    // a large frame is made in steps, up to where r11 points; the loop's step stands in the code once
    let mut end = None;
    let mut jumps = false;
    for line in listing.lines() {
        if let Some(rest) = line.strip_suffix(">:") {
            name = rest
                .split_once('<')
                .map(|(_, n)| n.to_string())
                .unwrap_or_default();
            found.entry(name.clone()).or_default();
            depth = 0;
            end = None;
            continue;
        }
        let Some(frame) = found.get_mut(&name) else {
            continue;
        };
        if let Some((_, symbol)) = line.split_once("R_X86_64_") {
            if jumps {
                frame.calls.extend(callee(symbol));
            }
            continue;
        }
        let Some((operation, arguments)) = instruction(line) else {
            continue;
        };
        jumps = operation == "call" || operation.starts_with('j');
        depth = moved(depth, operation, arguments)
            .ok_or(format!("{name}: {operation} {arguments}: not understood"))?;
        match (operation, arguments, end) {
            ("mov", "%rsp,%r11", _) => end = Some(depth),
            ("sub", _, Some(from)) if arguments.ends_with(",%r11") => {
                end = subtracted(arguments).map(|n| from + n)
            }
            ("cmp", "%r11,%rsp", Some(to)) => {
                depth = to;
                end = None;
            }
            _ => {}
        }
        frame.deepest = frame.deepest.max(depth);
        if operation == "ret" {
            depth = frame.deepest;
        }
    }
    Ok(found)
}

fn instruction(line: &str) -> Option<(&str, &str)> {
    let (_, text) = line.split_once(":\t")?;
    let text = text.trim();
    Some(
        text.split_once(' ')
            .map(|(o, a)| (o, a.trim()))
            .unwrap_or((text, "")),
    )
}

/// The function that a relocation names, without the offset behind it.
fn callee(symbol: &str) -> Option<String> {
    let (_, name) = symbol.split_once(char::is_whitespace)?;
    let name = name.trim().trim_start_matches(".text.");
    let end = name.rfind(['-', '+']).unwrap_or(name.len());
    Some(name[..end].to_string())
}

/// The number that is added or subtracted.
fn subtracted(arguments: &str) -> Option<usize> {
    usize::from_str_radix(arguments.split(',').next()?.strip_prefix("$0x")?, 16).ok()
}

/// The depth behind an instruction; nothing where the stack pointer is moved in another way, or a call goes by a pointer.
fn moved(depth: usize, operation: &str, arguments: &str) -> Option<usize> {
    let number = || subtracted(arguments);
    match operation {
        "push" => Some(depth + ADDRESS),
        "pop" => Some(depth.saturating_sub(ADDRESS)),
        "sub" if arguments.ends_with(",%rsp") => Some(depth + number()?),
        "add" if arguments.ends_with(",%rsp") => Some(depth.saturating_sub(number()?)),
        "call" if arguments.starts_with('*') => None,
        _ if arguments.ends_with(",%rsp") && operation != "cmp" => None,
        _ => Some(depth),
    }
}
