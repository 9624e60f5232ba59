//! Says what is wrong, a line each, and what was looked at; ends with 1 if anything is wrong. The repository is the one in which this program
//! was built, or the folder that is given.
use std::path::PathBuf;
use std::process::ExitCode;

const ROOT: &str = concat!(env!("CARGO_MANIFEST_DIR"), "/../..");

fn main() -> ExitCode {
    let root = PathBuf::from(std::env::args().nth(1).unwrap_or(ROOT.to_string()));
    let mut right = true;
    for report in okrozumba_names::check(&root) {
        for problem in &report.problems {
            println!("{problem}");
        }
        println!("{}", report.summary);
        right &= report.problems.is_empty();
    }
    ExitCode::from(u8::from(!right))
}
