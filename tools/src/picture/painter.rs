//! Plays a run and draws up its picture.
use okrozumba::recorder::BadRun;
use okrozumba::{context, Answer, Code, TaskState, TaskStates};

use super::model::{spans, Column, Lane, NoPicture, Picture, Range};
use crate::run::{Five, Line, Player};
use crate::setup::Setup;
use crate::text::words;

/// No picture has more columns.
pub const MOST: u32 = 20_000;

impl Picture {
    /// The picture of a run's events in a range. Of a run that is refused on its way, the events before.
    pub fn of(title: &str, bytes: &[u8], range: Range) -> Result<Picture, NoPicture> {
        let (setup, _) = Setup::read(bytes);
        let mut painter = Painter {
            range,
            depth: 0,
            time: 0,
            events: 0,
            columns: Vec::new(),
            states: Vec::new(),
            refusal: None,
        };
        let mut player = Player::new(bytes);
        while let Some(line) = player.next() {
            painter.line(line, &player);
            if painter.columns.len() as u32 > MOST {
                return Err(NoPicture::TooMany(MOST));
            }
        }
        painter.picture(title, &setup)
    }
}

/// Builds a picture along a run.
struct Painter {
    range: Range,
    depth: u32,
    time: u32,
    events: u32,
    columns: Vec<Column>,
    /// The states after each column, and before the first if the range does not begin at the start.
    states: Vec<TaskStates>,
    refusal: Option<BadRun>,
}

impl Painter {
    fn line(&mut self, line: Line, player: &Player) {
        let column = match line {
            Line::Start(running) => start(running),
            Line::Event(number, five, answer) => self.event(number, five, answer),
            Line::Refused(bad) => {
                self.refusal = Some(bad);
                return;
            }
        };
        self.events = column.number;
        if self.range.has(column.number + 1) || self.range.has(column.number) {
            let states = player.state().states();
            self.states
                .push(states.expect("the state of a run is sound"));
        }
        if self.range.has(column.number) {
            self.columns.push(column);
        }
    }

    /// Entries and returns that are accepted change how many handlers are open.
    fn event(&mut self, number: u32, five: Five, answer: Answer) -> Column {
        let kind = five[0];
        if answer.code() == Code::E_OK {
            match kind {
                context::ENTRY => self.depth += 1,
                context::RETURN => self.depth -= 1,
                context::TICK => self.time += 1,
                _ => {}
            }
        }
        Column {
            number,
            event: words::brief(five),
            answer: told(words::parts(five, answer)),
            refused: answer
                .code()
                .is_refusal()
                .then(|| answer.code().to_string()),
            running: answer.running,
            depth: self.depth,
            time: self.time,
            is_tick: kind == context::TICK,
            released: answer.released,
        }
    }

    fn picture(self, title: &str, setup: &Setup) -> Result<Picture, NoPicture> {
        match self.refusal {
            Some(bad) if self.states.is_empty() && self.events == 0 => {
                return Err(NoPicture::Refused(bad))
            }
            _ if self.columns.is_empty() => return Err(NoPicture::Empty(self.events)),
            _ => {}
        }
        let tasks = (1..).zip(&setup.tasks);
        Ok(Picture {
            title: title.to_string(),
            lanes: tasks
                .map(|(id, task)| self.lane(id, task.priority))
                .collect(),
            columns: self.columns,
            refusal: self.refusal,
        })
    }

    fn lane(&self, task: u32, priority: u32) -> Lane {
        let before = self.states.len() - self.columns.len();
        let states: Vec<TaskState> = self
            .states
            .iter()
            .filter_map(|states| states.of(task))
            .collect();
        let is_released = |column: &usize| {
            let after = column + before;
            after > 0 && waits(states[after - 1]) && may_run(states[after])
        };
        Lane {
            task,
            priority,
            released: (0..self.columns.len()).filter(is_released).collect(),
            states: spans(states[before..].iter().map(|state| state.number())),
        }
    }
}

fn waits(state: TaskState) -> bool {
    matches!(state, TaskState::Wait | TaskState::WaitSuspend)
}

/// Where a release leads.
fn may_run(state: TaskState) -> bool {
    matches!(
        state,
        TaskState::Ready | TaskState::Run | TaskState::Suspend
    )
}

/// The parts of an answer that are not empty.
fn told(parts: [String; 3]) -> String {
    let parts: Vec<String> = parts.into_iter().filter(|part| !part.is_empty()).collect();
    parts.join(", ")
}

fn start(running: u32) -> Column {
    Column {
        number: 0,
        event: "start".to_string(),
        answer: words::runs(running),
        refused: None,
        running,
        depth: 0,
        time: 0,
        is_tick: false,
        released: 0,
    }
}

#[cfg(test)]
mod tests {
    use super::*;
    use crate::picture::model::Span;
    use crate::samples;
    use okrozumba::figures::Counter;
    use okrozumba::playback;
    use std::fs;

    /// A run and its text as `play` writes it.
    struct Sample {
        bytes: Vec<u8>,
        text: String,
    }

    /// The shipped runs that have a picture, with their texts, and random ones.
    fn runs() -> Vec<Sample> {
        let shipped = samples::shipped().into_iter().map(|run| Sample {
            text: fs::read_to_string(run.name.replace(".run", ".txt"))
                .expect("its text is shipped"),
            bytes: run.bytes,
        });
        let drawn = (0..40).map(|seed| {
            let (bytes, _) = samples::drawn(seed, 200);
            let text = played(&bytes);
            Sample { bytes, text }
        });
        shipped
            .filter(|run| run.text.starts_with("start"))
            .chain(drawn)
            .collect()
    }

    fn played(bytes: &[u8]) -> String {
        let mut text = vec![0; 100_000];
        let long = playback::play(bytes, &mut text).expect("there is place");
        String::from_utf8_lossy(&text[..long]).into_owned()
    }

    fn whole(bytes: &[u8]) -> Picture {
        Picture::of("a run", bytes, Range::default()).expect("it has a picture")
    }

    /// The numbers of the lines of events.
    fn numbers(text: &str) -> Vec<Vec<i64>> {
        let events = text.lines().filter(|line| !line.starts_with(['s', 'r']));
        let numbers = |line: &str| {
            line.split(' ')
                .map(|number| number.parse().unwrap())
                .collect()
        };
        events.map(numbers).collect()
    }

    fn each(spans: &[Span]) -> Vec<u32> {
        spans
            .iter()
            .flat_map(|span| vec![span.value; span.to - span.from])
            .collect()
    }

    #[test]
    fn numbers_are_the_players() {
        for Sample { bytes, text } in runs() {
            let picture = whole(&bytes);
            let played = numbers(&text);
            let running = each(&picture.running());
            assert_eq!(picture.columns.len(), played.len() + 1);
            for (place, line) in played.iter().enumerate() {
                let column = &picture.columns[place + 1];
                assert_eq!(i64::from(column.number), line[0]);
                let refused = (line[1] < 0).then(|| Code::of(line[1] as i32).to_string());
                assert_eq!(column.refused, refused);
                assert_eq!(i64::from(running[place + 1]), line[4]);
                let dots = picture
                    .lanes
                    .iter()
                    .filter(|lane| lane.released.contains(&(place + 1)));
                assert_eq!(dots.count() as i64, line[5]);
            }
        }
    }

    #[test]
    fn states_are_those_of_the_figures() {
        for Sample { bytes, .. } in runs() {
            let mut counter = Counter::new();
            counter.part(&bytes);
            let record = counter.record();
            for lane in whole(&bytes).lanes {
                let states = each(&lane.states);
                for state in 0..TaskState::ALL.len() {
                    let count = states[1..]
                        .iter()
                        .filter(|found| **found as usize == state)
                        .count();
                    assert_eq!(
                        record.in_state(lane.task as usize, state),
                        Some(count as u32)
                    );
                }
            }
        }
    }

    #[test]
    fn a_range_is_a_part_of_the_whole() {
        for Sample { bytes, .. } in runs() {
            let all = whole(&bytes);
            let events = all.columns.len() as u32;
            let range = Range {
                from: events / 3,
                to: events / 2,
            };
            let part = Picture::of("a run", &bytes, range).expect("it has a picture");
            let (from, to) = (
                range.from as usize,
                (range.to as usize + 1).min(all.columns.len()),
            );
            assert_eq!(part.columns, all.columns[from..to]);
            for (some, lane) in part.lanes.iter().zip(&all.lanes) {
                assert_eq!(each(&some.states), each(&lane.states)[from..to]);
                let inside = lane
                    .released
                    .iter()
                    .filter(|column| (from..to).contains(column));
                let moved: Vec<usize> = inside.map(|column| column - from).collect();
                assert_eq!(some.released, moved);
            }
        }
    }

    #[test]
    fn no_picture() {
        let (bytes, _) = samples::drawn(1, 5);
        let beyond = Range { from: 6, to: 9 };
        assert_eq!(Picture::of("", &bytes, beyond), Err(NoPicture::Empty(5)));
        assert!(matches!(
            Picture::of("", &[], Range::default()),
            Err(NoPicture::Refused(_))
        ));
        let cut = Picture::of("", &bytes[..bytes.len() - 1], Range::default())
            .expect("four events stand");
        assert_eq!(cut.columns.len(), 5);
        assert!(cut.refusal.is_some());
    }
}
