//! What no proof covers, from outside: the archive behind its C functions is held to a second kernel, a second reader of setups and a
//! second decision of what a sound state is. Seeds are fixed, so that every run of it is the same. Ends with 1 at the first difference. With
//! a word, only the parts that have it in their name.
mod batch;
mod brightness;
mod calls;
mod compare;
mod damage;
mod drawn;
mod handlers;
mod month;
mod pair;
mod parts;
mod peer;
mod playback;
mod program;
mod reach;
mod records;
mod refused;
mod runs;
mod sheet;
mod states;

use std::process::ExitCode;
use std::thread;
use std::time::Instant;

/// Counts as text, or the first difference.
pub type Verdict = Result<String, String>;

type Part = (&'static str, fn() -> Verdict);

const PARTS: [Part; 16] = [
    ("bench sheet", sheet::check),
    ("random runs", runs::check),
    ("states of all tasks", states::check),
    ("calls by name", calls::check),
    ("handlers", handlers::check),
    ("drawn states", drawn::check),
    ("damaged states", damage::check),
    ("refused setups", refused::check),
    ("many events at once", batch::check),
    ("recorded runs", playback::check),
    ("months", month::check),
    ("records", records::check),
    ("changed setups", compare::check),
    ("brightness", brightness::check),
    ("runs in parts", parts::check),
    ("the peer in C", peer::check),
];

fn timed(check: fn() -> Verdict) -> (Verdict, f64) {
    let begun = Instant::now();
    (check(), begun.elapsed().as_secs_f64())
}

fn main() -> ExitCode {
    let word = std::env::args().nth(1).unwrap_or_default();
    let chosen = PARTS.into_iter().filter(|(name, _)| name.contains(&word));
    // all at once, told in order
    let begun: Vec<_> = chosen
        .map(|(name, check)| (name, thread::spawn(move || timed(check))))
        .collect();
    let many = begun.len();
    for (name, part) in begun {
        let Ok((verdict, seconds)) = part.join() else {
            println!("{name}: FAILED, see above");
            return ExitCode::FAILURE;
        };
        match verdict {
            Ok(counts) => println!("{name} ({seconds:.1} s): {counts}"),
            Err(difference) => {
                println!("{name} ({seconds:.1} s): FAILED\n{difference}");
                return ExitCode::FAILURE;
            }
        }
    }
    println!("{many} parts, no difference");
    ExitCode::SUCCESS
}
