//! The player in parts beside the one of whole files, for which no archive is needed.
use super::*;
use crate::cases;
use crate::random::Random;
use crate::recording::{Five, Recording};
use crate::script::SIZES;

const FILES: u64 = 24;
const EVENTS: usize = 30;
const LONG: usize = 1 << 20;

/// The bench sheet's setup with sta_tsk(3) and slp_tsk.
fn sheet() -> Vec<u8> {
    let setup = cases::setup().unwrap();
    let events: Vec<Five> = vec![[0, 1, 3, 0, 0], [0, 9, 0, 0, 0]];
    Recording { setup, events }.bytes()
}

/// The text of parts, one behind the other, and of the end.
fn text<'a>(parts: impl IntoIterator<Item = &'a [u8]>) -> String {
    let mut player = Player::default();
    let mut text = String::new();
    for part in parts {
        text += &player.part(part, LONG).1;
    }
    text + &player.end(LONG).1
}

/// Whole, cut in two anywhere, cut off anywhere, and with bytes left over.
#[test]
fn texts_are_those_of_whole_files() {
    for seed in 0..FILES {
        let random = &mut Random::new(seed);
        let size = SIZES[seed as usize % SIZES.len()];
        let mut file = Recording::drawn(random, size, EVENTS).bytes();
        file.extend([7; 5]);
        for end in 0..file.len() {
            let cut = &file[..end];
            assert_eq!(text([cut]), recording::text(cut), "seed {seed}, {end}");
        }
        let whole = recording::text(&file);
        for at in 0..=file.len() {
            let (front, rest) = file.split_at(at);
            assert_eq!(text([front, rest]), whole, "seed {seed}, cut at {at}");
        }
        assert_eq!(text(file.chunks(1)), whole, "seed {seed}");
    }
}

/// The request's own example, whole and byte by byte.
#[test]
fn example_holds() {
    let wanted = "start 1\n1 0 0 0 3 0\n2 1 0 0 1 0\n";
    assert_eq!(text([&sheet()[..]]), wanted);
    assert_eq!(text(sheet().chunks(1)), wanted);
}

/// What is said of the end and of what follows it, and of a refusal and what follows.
#[test]
fn nothing_follows() {
    let file = sheet();
    let long = file.len();
    let tell = |told: (Parted, String)| (told.0.said, told.1);
    let none = String::new();

    let mut whole = Player::default();
    whole.part(&file, LONG);
    assert_eq!(tell(whole.end(0)), (Said::Taken, none.clone()));
    assert_eq!(tell(whole.part(&[], 0)), (Said::Taken, none.clone()));
    assert_eq!(tell(whole.part(&[1], LONG)), (Said::Closed, none.clone()));
    assert_eq!(tell(whole.end(LONG)), (Said::Closed, none.clone()));

    let mut more = Player::default();
    more.part(&file, LONG);
    let (told, line) = more.part(&[1, 2], LONG);
    assert_eq!((told.said, told.taken), (said((S4, long)), 1));
    assert_eq!(line, format!("refused 4 {long}\n"));
    assert_eq!(tell(more.part(&[2], LONG)), (Said::Closed, none.clone()));
    assert_eq!(tell(more.end(0)), (Said::Taken, none.clone()));
    assert_eq!(tell(more.end(0)), (Said::Closed, none.clone()));

    let mut less = Player::default();
    less.part(&file[..long - 1], LONG);
    let line = format!("refused 1 {}\n", long - 4);
    assert_eq!(tell(less.end(line.len() - 1)), (Said::Full, none.clone()));
    assert_eq!(tell(less.end(line.len())), (said((S1, long - 4)), line));
    assert_eq!(tell(less.part(&[1], LONG)), (Said::Closed, none.clone()));
    assert_eq!(tell(less.end(LONG)), (Said::Closed, none));
}

/// The count at its end and one more, and nothing behind it.
#[test]
fn counts_are_judged() {
    let front = crate::setup::bytes(&cases::setup().unwrap());
    let with = |count: u32| [&front[..], &count.to_le_bytes()].concat();
    let at = front.len();
    assert_eq!(text([&with(0)[..]]), "start 1\n");
    let wanted = format!("start 1\nrefused 1 {}\n", at + 4);
    assert_eq!(text([&with(1_000_000)[..]]), wanted);
    let wanted = format!("refused 2 {at}\n");
    assert_eq!(text([&with(1_000_001)[..]]), wanted);
}

/// A setup alone may end after seven sections; in a run the eighth always stands.
#[test]
fn eighth_section_stands() {
    let setup = cases::setup().unwrap();
    let eight = crate::setup::bytes(&setup);
    let at = eight.len() - 4;
    let seven = &eight[..at];
    let read = crate::setup::read;
    assert_eq!(read(seven), Ok(setup.clone()));
    assert_eq!(read(&eight), Ok(setup));
    for end in at + 1..at + 4 {
        assert_eq!(read(&eight[..end]), Err((S1, at)));
    }
    assert_eq!(read(&[seven, &2_u32.to_le_bytes()].concat()), Err((2, at)));
    assert_eq!(read(&[&eight[..], &[0]].concat()), Err((S4, at + 4)));
    // a count of events in its place
    for many in [0, 1, 2, 3000_u32] {
        let events = vec![1; 20 * many as usize];
        let old = [seven, &many.to_le_bytes(), &events].concat();
        let refused = match many {
            0 => (S1, at + 4),
            1 => (3, at + 4),
            _ => (2, at),
        };
        assert_eq!(text([&old[..]]), recording::refusal(refused));
    }
}
