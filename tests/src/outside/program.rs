//! The program `play`, as a user runs it: a file on standard input, its text on standard output.
use std::io::{BufRead, BufReader, ErrorKind, Write};
use std::process::{Child, ChildStdin, Command, Stdio};
use std::sync::mpsc;
use std::thread;
use std::time::Duration;

const PLAY: &str = concat!(env!("CARGO_MANIFEST_DIR"), "/../crates/play/out/play");
/// A line that isn't there by then never comes.
const PATIENCE: Duration = Duration::from_secs(20);

fn failed(e: impl std::fmt::Display) -> String {
    format!("{PLAY}: {e}")
}

fn begun() -> Result<(Child, ChildStdin), String> {
    let mut program = Command::new(PLAY)
        .stdin(Stdio::piped())
        .stdout(Stdio::piped())
        .spawn()
        .map_err(|e| format!("{PLAY}: {e}; `rt run` in crates/play makes it"))?;
    let input = program.stdin.take().expect("it was asked for");
    Ok((program, input))
}

/// Feeds the bytes in pieces. Behind a refusal the program reads no more, so the last of them may find nobody.
fn feed(mut input: impl Write, bytes: &[u8], piece: usize) -> Result<(), String> {
    for part in bytes.chunks(piece) {
        match input.write_all(part) {
            Err(e) if e.kind() == ErrorKind::BrokenPipe => return Ok(()),
            written => written.map_err(failed)?,
        }
    }
    Ok(())
}

/// What the program writes.
pub fn play(file: &[u8], piece: usize) -> Result<Vec<u8>, String> {
    let (program, input) = begun()?;
    // it writes while it reads, so it is fed by another thread
    let output = thread::scope(|both| {
        let fed = both.spawn(move || feed(input, file, piece));
        let output = program.wait_with_output().map_err(failed)?;
        fed.join().expect("feeding does not panic")?;
        Ok::<_, String>(output)
    })?;
    if output.status.success() {
        Ok(output.stdout)
    } else {
        Err(failed(format!("ended with {}", output.status)))
    }
}

/// Feeds each part once the lines of the parts before it are read: each must come while the input is still open.
pub fn live(parts: &[(&[u8], &str)]) -> Result<(), String> {
    let (mut program, mut input) = begun()?;
    let output = program.stdout.take().expect("it was asked for");
    let (send, receive) = mpsc::channel();
    thread::spawn(move || {
        let mut lines = BufReader::new(output);
        let mut line = String::new();
        while lines.read_line(&mut line).is_ok_and(|bytes| bytes > 0) {
            if send.send(std::mem::take(&mut line)).is_err() {
                return;
            }
        }
    });
    for (part, wanted) in parts {
        input.write_all(part).map_err(failed)?;
        for wanted in wanted.split_inclusive('\n') {
            match receive.recv_timeout(PATIENCE) {
                Ok(line) if line == wanted => {}
                got => return Err(failed(format!("{got:?} while it waits, not {wanted:?}"))),
            }
        }
    }
    drop(input);
    let ended = program.wait().map_err(failed)?;
    match receive.recv_timeout(PATIENCE) {
        Err(_) if ended.success() => Ok(()),
        got => Err(failed(format!("{got:?} and {ended} behind the end"))),
    }
}
