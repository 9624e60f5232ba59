//! Where things stand in a drawing: rows, columns, and the room that texts take.
use super::model::Picture;

/// Room for the names of the lanes.
pub const LEFT: f64 = 118.0;
pub const RIGHT: f64 = 20.0;
/// From this width on a column has its event in words below.
pub const WORDS: f64 = 15.0;
/// The room that an event's number takes.
pub const NUMBER: f64 = 34.0;
/// From the middle of a row to the base line of its text.
pub const BASE: f64 = 4.0;

/// The height of the rows above the lanes.
pub const ROW: f64 = 18.0;
/// The tops of those rows: the running task and the open handlers.
pub const RUNNING: f64 = 4.0;
pub const DEPTHS: f64 = RUNNING + ROW + 6.0;
const LANES: f64 = DEPTHS + ROW + 12.0;
/// The height of a lane.
pub const LANE: f64 = 22.0;

/// Where rows stand, from the top of the plot.
#[derive(Clone, Copy)]
pub struct Rows {
    lanes: usize,
}

impl Rows {
    pub fn of(picture: &Picture) -> Rows {
        Rows {
            lanes: picture.lanes.len(),
        }
    }

    /// The top of a lane, or the end of the last.
    pub fn top(self, lane: usize) -> f64 {
        LANES + LANE * lane as f64
    }

    pub fn middle(self, lane: usize) -> f64 {
        self.top(lane) + LANE / 2.0
    }

    /// The base line of the running task's number.
    pub fn running() -> f64 {
        RUNNING + ROW / 2.0 + BASE
    }

    fn end(self) -> f64 {
        self.top(self.lanes)
    }

    /// The middle of the row of refused events.
    pub fn refused(self) -> f64 {
        self.end() + 14.0
    }

    /// The base line of the events' numbers.
    pub fn numbers(self) -> f64 {
        self.end() + 40.0
    }

    /// The top of the ticks' marks.
    pub fn ticks(self) -> f64 {
        self.end() + 48.0
    }

    /// The base line of the ticks' numbers.
    pub fn times(self) -> f64 {
        self.ticks() + 18.0
    }

    /// Where the events in words begin.
    pub fn words(self) -> f64 {
        self.end() + 80.0
    }
}

/// Columns to the drawing's units.
#[derive(Clone, Copy)]
pub struct Scale {
    pub left: f64,
    pub column: f64,
}

impl Scale {
    pub fn x(self, column: usize) -> f64 {
        self.left + self.column * column as f64
    }

    pub fn middle(self, column: usize) -> f64 {
        self.x(column) + self.column / 2.0
    }
}

/// A number with two digits behind the point at most.
pub fn short(value: f64) -> String {
    let text = format!("{value:.2}");
    text.trim_end_matches('0').trim_end_matches('.').to_string()
}

/// How wide a text is at most, roughly.
pub fn width(text: &str) -> f64 {
    let letter = |letter: char| if letter.is_uppercase() { 8.4 } else { 6.7 };
    text.chars().map(letter).sum()
}
