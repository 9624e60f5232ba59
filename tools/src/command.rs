//! The command line: what is asked, what is written, and how it ends.
use std::io::Read;

use okrozumba::recorder::BadRun;

use crate::calls::CALLS;
use crate::compare;
use crate::month::{self, Counted};
use crate::picture::model::{NoPicture, Picture, Range};
use crate::picture::{page, svg};
use crate::run;
use crate::text::line::Wrong;
use crate::text::{reader, writer};

pub const DONE: u8 = 0;
pub const BAD_INPUT: u8 = 1;
pub const BAD_USAGE: u8 = 2;

pub const HELP: &str = "\
okrozumba: recorded runs as text, as lists and as pictures

  okrozumba assemble RUN.txt > RUN.run      the file of a run that is written as text
  okrozumba calls                           the calls by name, with the words that each takes
  okrozumba list RUN.run                    a run in words, each event with its answer; it assembles back
  okrozumba picture RUN.run > RUN.html      a page with a lane for each task, its state over the events
  okrozumba month RUN.run... > MONTH.html   a page with the states and codes of up to 64 runs
  okrozumba compare INPUT > CHANGE.html     a page with what a second setup changes in a run
  okrozumba compare RUN.run NEW.run         the same of NEW.run's setup in RUN.run

A file named - is standard input.

  -o FILE      write there; without it, to standard output. FILE is left as it is if nothing comes out
  --svg        picture: the drawing alone
  --from N     picture: the first event shown; 0 is the start
  --to N       picture: the last event shown

The text form, the files and their faults: docs/FORMAT.md.
Exit status: 0 done; 1 a bad input, whose fault and place are told; 2 a bad command line.";

/// What a command comes to.
pub struct Outcome {
    pub output: Vec<u8>,
    /// The file that the output is for; nothing for standard output.
    pub to: Option<String>,
    /// For standard error.
    pub said: String,
    pub status: u8,
}

/// Why nothing is written.
enum Failure {
    Usage(String),
    Input(String),
}

/// What is written, and what is wrong with the input although something is.
struct Done {
    output: Vec<u8>,
    wrong: Option<String>,
}

impl From<String> for Done {
    fn from(output: String) -> Done {
        Done {
            output: output.into_bytes(),
            wrong: None,
        }
    }
}

/// A file: where it is, what it is called, and what it holds.
struct Input {
    path: String,
    name: String,
    bytes: Vec<u8>,
}

#[derive(Default)]
struct Options {
    files: Vec<String>,
    to: Option<String>,
    svg: bool,
    range: Range,
    shows_range: bool,
}

/// Does what the words of a command line ask.
pub fn run(words: &[String]) -> Outcome {
    let help = |word: &String| word == "--help" || word == "-h";
    if words.iter().any(help) || words.first().is_some_and(|word| word == "help") {
        return Outcome {
            output: format!("{HELP}\n").into_bytes(),
            to: None,
            said: String::new(),
            status: DONE,
        };
    }
    let Some((command, rest)) = words.split_first() else {
        return refused(Failure::Usage("a command is missing".to_string()));
    };
    let options = match Options::of(rest) {
        Ok(options) => options,
        Err(failure) => return refused(failure),
    };
    let to = options.to.clone();
    match ask(command, options) {
        Ok(Done {
            output,
            wrong: None,
        }) => Outcome {
            output,
            to,
            said: String::new(),
            status: DONE,
        },
        Ok(Done {
            output,
            wrong: Some(said),
        }) => Outcome {
            output,
            to,
            said,
            status: BAD_INPUT,
        },
        Err(failure) => refused(failure),
    }
}

fn refused(failure: Failure) -> Outcome {
    let (said, status) = match failure {
        Failure::Usage(said) => (
            format!("okrozumba: {said}; try okrozumba --help"),
            BAD_USAGE,
        ),
        Failure::Input(said) => (said, BAD_INPUT),
    };
    Outcome {
        output: Vec::new(),
        to: None,
        said,
        status,
    }
}

impl Options {
    fn of(words: &[String]) -> Result<Options, Failure> {
        let mut options = Options::default();
        let mut words = words.iter();
        while let Some(word) = words.next() {
            match word.as_str() {
                "-o" => options.to = Some(value(word, words.next())?.clone()),
                "--svg" => options.svg = true,
                "--from" => options.range.from = number(word, words.next())?,
                "--to" => options.range.to = number(word, words.next())?,
                "-" => options.files.push(word.clone()),
                word if word.starts_with('-') => {
                    return Err(Failure::Usage(format!("there is no option {word}")));
                }
                _ => options.files.push(word.clone()),
            }
        }
        options.shows_range = options.range != Range::default();
        Ok(options)
    }

    /// The one file that a command takes.
    fn one(&self, command: &str) -> Result<Input, Failure> {
        match &self.files[..] {
            [file] => read(file),
            [] => Err(Failure::Usage(format!("{command} takes a file"))),
            _ => Err(Failure::Usage(format!("{command} takes one file"))),
        }
    }
}

fn value<'a>(option: &str, value: Option<&'a String>) -> Result<&'a String, Failure> {
    value.ok_or_else(|| Failure::Usage(format!("{option} takes a value")))
}

fn number(option: &str, word: Option<&String>) -> Result<u32, Failure> {
    let word = value(option, word)?;
    word.parse()
        .map_err(|_| Failure::Usage(format!("{option} takes an event's number, not {word}")))
}

fn read(file: &str) -> Result<Input, Failure> {
    let bytes = if file == "-" {
        let mut bytes = Vec::new();
        std::io::stdin().read_to_end(&mut bytes).map(|_| bytes)
    } else {
        std::fs::read(file)
    };
    match bytes {
        Ok(bytes) => Ok(Input {
            path: path(file),
            name: title(file),
            bytes,
        }),
        Err(wrong) => Err(Failure::Input(format!("okrozumba: {file}: {wrong}"))),
    }
}

/// A file as it is called in messages.
fn path(file: &str) -> String {
    match file {
        "-" => "standard input".to_string(),
        file => visible(file),
    }
}

/// The same without its folders, as a title.
fn title(file: &str) -> String {
    let path = path(file);
    path.rsplit('/').next().unwrap_or(&path).to_string()
}

/// A line without what would end it or steer a terminal.
fn visible(line: &str) -> String {
    let shown = |letter: char| {
        if letter.is_control() && letter != '\t' {
            '?'
        } else {
            letter
        }
    };
    line.chars().map(shown).collect()
}

fn ask(command: &str, options: Options) -> Result<Done, Failure> {
    if command != "picture" && (options.svg || options.shows_range) {
        return Err(Failure::Usage(
            "--svg, --from and --to are for picture".to_string(),
        ));
    }
    match command {
        "assemble" => assemble(&options.one(command)?),
        "calls" => calls(&options.files),
        "list" => list(&options.one(command)?),
        "picture" => picture(&options.one(command)?, &options),
        "month" => month(&options.files),
        "compare" => compare(&options.files),
        _ => Err(Failure::Usage(format!("there is no command {command}"))),
    }
}

fn calls(files: &[String]) -> Result<Done, Failure> {
    if !files.is_empty() {
        return Err(Failure::Usage("calls takes no file".to_string()));
    }
    let lines: String = CALLS.iter().map(|call| format!("{call}\n")).collect();
    Ok(Done::from(lines))
}

fn assemble(input: &Input) -> Result<Done, Failure> {
    let told = |wrong: Wrong| Failure::Input(shown(input, &wrong));
    let text = reader::utf8(&input.bytes).map_err(told)?;
    let output = reader::assemble(text).map_err(told)?;
    Ok(Done {
        output,
        wrong: None,
    })
}

/// What is wrong with a text, the line, and a mark below the place.
fn shown(input: &Input, wrong: &Wrong) -> String {
    let text = String::from_utf8_lossy(&input.bytes);
    let text = text.trim_start_matches('\u{feff}');
    let line = visible(text.lines().nth(wrong.at.line - 1).unwrap_or(""));
    let before = line.chars().take(wrong.at.column - 1);
    let blank: String = before
        .map(|letter| if letter == '\t' { '\t' } else { ' ' })
        .collect();
    let pad = " ".repeat((wrong.at.column - 1).saturating_sub(blank.chars().count()));
    let mark = "^".repeat(wrong.at.width.max(1));
    let said = visible(&format!("{}:{wrong}", input.path));
    format!("{said}\n    {line}\n    {blank}{pad}{mark}")
}

/// A run's fault and its place. No run is text alone: its first word has bytes of 0.
fn fault(input: &Input, bad: BadRun) -> String {
    let is_text = !input.bytes.is_empty() && !input.bytes.contains(&0);
    let hint = if is_text {
        " (a text? okrozumba assemble makes a run of it)"
    } else {
        ""
    };
    format!("{}: {}{hint}", input.path, run::refusal(bad))
}

fn list(input: &Input) -> Result<Done, Failure> {
    let mut output = Vec::new();
    let bad = writer::list(&input.name, &input.bytes, &mut output);
    let bad = bad.map_err(|wrong| Failure::Input(wrong.to_string()))?;
    Ok(Done {
        output,
        wrong: bad.map(|bad| fault(input, bad)),
    })
}

fn picture(input: &Input, options: &Options) -> Result<Done, Failure> {
    let picture = Picture::of(&input.name, &input.bytes, options.range);
    let picture = picture.map_err(|why| Failure::Input(no_picture(input, why)))?;
    let drawn = if options.svg {
        svg::alone(&picture)
    } else {
        page::page(&picture)
    };
    Ok(Done {
        wrong: picture.refusal.map(|bad| fault(input, bad)),
        ..Done::from(drawn)
    })
}

fn no_picture(input: &Input, why: NoPicture) -> String {
    let name = &input.path;
    match why {
        NoPicture::Refused(bad) => fault(input, bad),
        NoPicture::Empty(events) => {
            format!("{name}: no event is in that range; the run has {events}")
        }
        NoPicture::TooMany(most) => {
            format!("{name}: a picture has at most {most} events; choose some with --from and --to")
        }
    }
}

fn month(files: &[String]) -> Result<Done, Failure> {
    if files.is_empty() {
        return Err(Failure::Usage("month takes files".to_string()));
    }
    let inputs = files
        .iter()
        .map(|file| read(file))
        .collect::<Result<Vec<_>, _>>()?;
    let runs: Vec<Counted> = inputs
        .iter()
        .map(|input| Counted::of(&input.name, &input.bytes))
        .collect();
    let output = month::page(&runs).map_err(|why| Failure::Input(format!("okrozumba: {why}")))?;
    let bad = inputs
        .iter()
        .zip(&runs)
        .filter_map(|(input, run)| run.refusal.map(|bad| fault(input, bad)));
    let bad: Vec<String> = bad.collect();
    let wrong = (!bad.is_empty()).then(|| bad.join("\n"));
    Ok(Done {
        wrong,
        ..Done::from(output)
    })
}

fn compare(files: &[String]) -> Result<Done, Failure> {
    let input = match files {
        [file] => read(file)?,
        [run, new] => joined(read(run)?, read(new)?)?,
        _ => return Err(Failure::Usage("compare takes one file or two".to_string())),
    };
    let page = compare::page(&input.name, &input.bytes);
    page.map(Done::from)
        .map_err(|bad| Failure::Input(fault(&input, bad)))
}

/// The input of a comparison: a run with another run's setup behind its own. Both runs must be accepted.
fn joined(run: Input, new: Input) -> Result<Input, Failure> {
    for input in [&run, &new] {
        if let Some(bad) = run::fault(&input.bytes) {
            return Err(Failure::Input(fault(input, bad)));
        }
    }
    Ok(Input {
        path: format!("{} with the setup of {}", run.path, new.path),
        name: format!("{} with the setup of {}", run.name, new.name),
        bytes: compare::input(&run.bytes, &new.bytes),
    })
}
