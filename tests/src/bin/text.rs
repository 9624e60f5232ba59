//! The second player as a program: a recorded run on standard input, its text on standard output as it comes. The texts in examples/runs are
//! its own: `cargo run --bin text < mixed.run > mixed.txt`.
use second::stream::Player;
use std::io::{self, Read, Write};

const PART: usize = 1 << 16;
const ANY_ROOM: usize = usize::MAX;

fn main() -> io::Result<()> {
    let (mut input, mut output) = (io::stdin(), io::stdout());
    let mut player = Player::default();
    let mut part = [0; PART];
    loop {
        let (_, lines) = match input.read(&mut part)? {
            0 => break,
            many => player.part(&part[..many], ANY_ROOM),
        };
        output.write_all(lines.as_bytes())?;
        output.flush()?;
    }
    let (_, line) = player.end(ANY_ROOM);
    output.write_all(line.as_bytes())
}
