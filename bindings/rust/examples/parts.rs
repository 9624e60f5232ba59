//! A recorded run that comes in parts: its lines go to standard output as they come. From the repository's root:
//!
//!     (cd crates/okrozumba && rt lib --cpu x86-64)
//!     cargo run --offline --manifest-path bindings/rust/Cargo.toml --example parts
//!
//! It prints:
//!
//!     the setup and the number of events: Taken
//!     start 1
//!     half an event: Taken
//!     the rest of it: Taken
//!     1 0 0 0 3 0
//!     the end: Refused(BadRun { fault: S1, place: 92 })
//!     refused 1 92
//!     another byte: Closed
//!     running: task 3

use okrozumba::recorder::{Recorder, Said};
use std::io;

/// The bench sheet's setup; two events, of which the first, sta_tsk(3), comes whole.
const FRONT: [u32; 18] = [4, 3, 2, 1, 2, 1, 1, 0, 1, 0, 1, 0, 1, 2, 1, 2, 0, 2];
const START_3: [u32; 5] = [0, 1, 3, 0, 0];

fn bytes(words: &[u32]) -> Vec<u8> {
    words.iter().flat_map(|word| word.to_le_bytes()).collect()
}

/// Prints what is said before the lines that go with it.
fn say(what: &str, told: io::Result<Said>, lines: &[u8]) -> io::Result<()> {
    print!("{what}: {:?}\n{}", told?, String::from_utf8_lossy(lines));
    Ok(())
}

fn main() -> io::Result<()> {
    let event = bytes(&START_3);
    let mut recorder = Recorder::new();
    for (what, part) in [
        ("the setup and the number of events", &bytes(&FRONT)[..]),
        ("half an event", &event[..10]),
        ("the rest of it", &event[10..]),
    ] {
        let mut lines = Vec::new();
        let told = recorder.take(part, &mut lines);
        say(what, told, &lines)?;
    }
    let mut lines = Vec::new();
    let told = recorder.finish(&mut lines);
    say("the end", told, &lines)?;
    say("another byte", recorder.take(&[0], &mut io::stdout()), &[])?;
    println!("running: task {}", recorder.state().running());
    Ok(())
}
