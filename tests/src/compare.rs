//! A second comparison of two setups over one run, from request K13 alone: from a whole input's bytes to its text.
use crate::plain::Plain;
use crate::recording::{self, Five};
use crate::setup::{Fault, Reader, Setup};

const EVENTS_MOST: u32 = 3000;

/// All of it is judged before anything runs.
fn read(input: &[u8]) -> Result<(Setup, Setup, Vec<Five>), Fault> {
    let mut reader = Reader::new(input);
    let first = reader.setup()?;
    let second = reader.setup()?;
    let many = reader.count(0, EVENTS_MOST)?;
    let mut events = Vec::new();
    for _ in 0..many {
        events.push(recording::five(&mut reader)?);
    }
    reader.end()?;
    Ok((first, second, events))
}

/// The text of an input.
pub fn text(input: &[u8]) -> String {
    let (first, second, events) = match read(input) {
        Ok(all) => all,
        Err(fault) => return recording::refusal(fault),
    };
    let mut kernels = [Plain::fresh(&first), Plain::fresh(&second)];
    let mut text = String::new();
    let mut changes = 0;
    for (number, five) in (1..).zip(events) {
        let lines = kernels
            .each_mut()
            .map(|kernel| recording::line(number, kernel.event(recording::event(five))));
        if lines[0] != lines[1] {
            changes += 1;
            text.extend(lines);
        }
    }
    text + &format!("{changes}\n")
}
