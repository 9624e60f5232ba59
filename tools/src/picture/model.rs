//! What a picture shows: columns, one for the start and one for each event, and lanes, one for each task.
use okrozumba::recorder::BadRun;

/// The events that are shown; 0 is the start.
#[derive(Clone, Copy, PartialEq, Eq, Debug)]
pub struct Range {
    pub from: u32,
    pub to: u32,
}

impl Default for Range {
    fn default() -> Range {
        Range {
            from: 0,
            to: u32::MAX,
        }
    }
}

impl Range {
    pub fn has(self, number: u32) -> bool {
        (self.from..=self.to).contains(&number)
    }
}

/// An event and what stands after it.
#[derive(Clone, PartialEq, Eq, Debug)]
pub struct Column {
    /// The event's number; 0 is the start.
    pub number: u32,
    /// The event in words.
    pub event: String,
    /// Its answer in words.
    pub answer: String,
    /// The name of a negative code.
    pub refused: Option<String>,
    pub running: u32,
    /// Handlers that are open.
    pub depth: u32,
    /// Ticks so far.
    pub time: u32,
    pub is_tick: bool,
    /// How many tasks were released.
    pub released: u32,
}

/// Neighbouring columns, from `from` to before `to`, that show the same.
#[derive(Clone, Copy, PartialEq, Eq, Debug)]
pub struct Span {
    pub from: usize,
    pub to: usize,
    pub value: u32,
}

/// A task.
#[derive(Clone, PartialEq, Eq, Debug)]
pub struct Lane {
    pub task: u32,
    /// Its starting priority in the setup.
    pub priority: u32,
    /// Its states by number.
    pub states: Vec<Span>,
    /// The columns at which it was released from a wait.
    pub released: Vec<usize>,
}

/// A picture.
#[derive(Clone, PartialEq, Eq, Debug)]
pub struct Picture {
    pub title: String,
    pub columns: Vec<Column>,
    pub lanes: Vec<Lane>,
    pub refusal: Option<BadRun>,
}

/// Why there is no picture.
#[derive(Clone, Copy, PartialEq, Eq, Debug)]
pub enum NoPicture {
    /// Setup or count are refused, so there is nothing to show.
    Refused(BadRun),
    /// There is no event in the range; the run has so many.
    Empty(u32),
    /// More events than a picture takes.
    TooMany(u32),
}

/// Neighbours that show the same, as one.
pub fn spans(values: impl Iterator<Item = u32>) -> Vec<Span> {
    let mut spans: Vec<Span> = Vec::new();
    for (from, value) in values.enumerate() {
        match spans.last_mut() {
            Some(last) if last.value == value => last.to = from + 1,
            _ => spans.push(Span {
                from,
                to: from + 1,
                value,
            }),
        }
    }
    spans
}

impl Picture {
    pub fn running(&self) -> Vec<Span> {
        spans(self.columns.iter().map(|column| column.running))
    }

    pub fn depths(&self) -> Vec<Span> {
        spans(self.columns.iter().map(|column| column.depth))
    }

    pub fn deepest(&self) -> u32 {
        self.columns
            .iter()
            .map(|column| column.depth)
            .max()
            .unwrap_or(0)
    }

    /// What is shown, in a line.
    pub fn summary(&self) -> String {
        let count = |counts: fn(&Column) -> bool| {
            self.columns.iter().filter(|column| counts(column)).count()
        };
        let events = count(|column| column.number > 0);
        let last = self.columns.last().map_or(0, |column| column.number);
        let first = self
            .columns
            .first()
            .map_or(0, |column| column.number.max(1));
        let released: u32 = self.columns.iter().map(|column| column.released).sum();
        let shown = match events {
            0 => "the start alone".to_string(),
            1 => format!("event {last}"),
            _ => format!("events {first} to {last}"),
        };
        format!(
            "{shown}, {} tasks, {} ticks, {} refused, {released} released",
            self.lanes.len(),
            count(|column| column.is_tick),
            count(|column| column.refused.is_some()),
        )
    }
}

#[cfg(test)]
mod tests {
    use super::*;

    #[test]
    fn neighbours_are_one_span() {
        let spans = spans([3, 3, 1, 3].into_iter());
        let parts: Vec<_> = spans
            .iter()
            .map(|span| (span.from, span.to, span.value))
            .collect();
        assert_eq!(parts, [(0, 2, 3), (2, 3, 1), (3, 4, 3)]);
    }
}
