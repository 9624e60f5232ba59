//! `okrozumba`: see [`bench::command`].
#![forbid(unsafe_code)]

use std::io::{self, ErrorKind, Write};
use std::process::ExitCode;

use bench::command::{self, Outcome};

fn main() -> ExitCode {
    let words: Vec<String> = std::env::args().skip(1).collect();
    let Outcome {
        output,
        to,
        said,
        status,
    } = command::run(&words);
    let written = match to {
        Some(file) => std::fs::write(&file, output).map_err(|wrong| format!("{file}: {wrong}")),
        None => print(&output).map_err(|wrong| format!("standard output: {wrong}")),
    };
    if !said.is_empty() {
        eprintln!("{said}");
    }
    match written {
        Ok(()) => ExitCode::from(status),
        Err(wrong) => {
            eprintln!("okrozumba: {wrong}");
            ExitCode::from(command::BAD_INPUT)
        }
    }
}

/// A reader that has enough, as `head`, is no error.
fn print(output: &[u8]) -> io::Result<()> {
    let mut out = io::stdout().lock();
    match out.write_all(output).and_then(|()| out.flush()) {
        Err(wrong) if wrong.kind() == ErrorKind::BrokenPipe => Ok(()),
        written => written,
    }
}
