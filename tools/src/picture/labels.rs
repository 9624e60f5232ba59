//! The texts of a drawing, at a scale.
use super::layout::{short, width, Rows, Scale, BASE, DEPTHS, LEFT, NUMBER, ROW, WORDS};
use super::model::{Column, Picture};
use super::palette::{Colour, ALERT, FAINT, GRID, INK};
use super::paths::stroked;
use crate::html::escaped;

/// A text; `anchor` is start, middle or end.
pub fn text(colour: &Colour, anchor: &str, x: f64, y: f64, said: &str) -> String {
    let (class, fill) = (colour.class, colour.light);
    let said = escaped(said);
    format!("<text class=\"{class}\" fill=\"{fill}\" text-anchor=\"{anchor}\" x=\"{}\" y=\"{}\">{said}</text>\n", short(x), short(y))
}

/// The names of rows and lanes, left of the plot, and a line below each lane.
pub fn names(picture: &Picture) -> String {
    let rows = Rows::of(picture);
    let at = LEFT - 10.0;
    let middle = |y: f64| y + BASE;
    let mut out = text(&INK, "end", at, Rows::running(), "running task");
    out += &text(&INK, "end", at, middle(DEPTHS + ROW / 2.0), "open handlers");
    for (place, lane) in picture.lanes.iter().enumerate() {
        let y = middle(rows.middle(place));
        let priority = format!("priority {}", lane.priority);
        out += &text(&FAINT, "end", at, y, &priority);
        out += &text(&INK, "start", 4.0, y, &format!("task {}", lane.task));
    }
    out += &text(&INK, "end", at, middle(rows.refused()), "refused");
    out += &text(&FAINT, "end", at, rows.numbers(), "event");
    out += &text(&FAINT, "end", at, rows.times(), "ticks");
    let line = |lane: usize| format!("M4 {}H{WIDE}", short(rows.top(lane)));
    let lines: String = (0..=picture.lanes.len()).map(line).collect();
    stroked(&GRID, 1.0, "butt", &lines) + &out
}

/// Lines that end beyond any drawing's right end, which cuts them.
const WIDE: u32 = 10_000;

/// All texts that depend on the scale.
pub fn labels(picture: &Picture, scale: Scale) -> String {
    numbers(picture, scale)
        + &times(picture, scale)
        + &codes(picture, scale)
        + &runners(picture, scale)
        + &words(picture, scale)
}

/// The least of 1, 2, 5, 10, 20, ... columns that are so wide.
fn step(column: f64, apart: f64) -> u32 {
    let steps = (0..9).flat_map(|tens| [1, 2, 5].map(|step| step * 10_u32.pow(tens)));
    steps
        .into_iter()
        .find(|step| column * f64::from(*step) >= apart)
        .unwrap_or(1)
}

fn numbers(picture: &Picture, scale: Scale) -> String {
    let rows = Rows::of(picture);
    let step = step(scale.column, NUMBER);
    let mut out = String::new();
    for (place, column) in picture.columns.iter().enumerate() {
        if column.number % step == 0 {
            let is_start = column.number == 0 && step == 1;
            let number = if is_start {
                "start".to_string()
            } else {
                column.number.to_string()
            };
            out += &text(
                &FAINT,
                "middle",
                scale.middle(place),
                rows.numbers(),
                &number,
            );
        }
    }
    out
}

/// The numbers of ticks, as many as have room.
fn times(picture: &Picture, scale: Scale) -> String {
    const APART: f64 = 32.0;
    let rows = Rows::of(picture);
    let mut last = f64::MIN;
    let mut out = String::new();
    for (place, column) in picture.columns.iter().enumerate() {
        let x = scale.middle(place);
        if column.is_tick && x - last >= APART {
            last = x;
            out += &text(&FAINT, "middle", x, rows.times(), &column.time.to_string());
        }
    }
    out
}

/// The codes of refused events beside their marks, as many as have room; where all events stand in words, these have them.
fn codes(picture: &Picture, scale: Scale) -> String {
    if scale.column >= WORDS {
        return String::new();
    }
    let y = Rows::of(picture).refused() + BASE;
    let refused = |(place, column): (usize, &Column)| Some((place, column.refused.clone()?));
    let mut refused = picture
        .columns
        .iter()
        .enumerate()
        .filter_map(refused)
        .peekable();
    let end = scale.x(picture.columns.len());
    let mut out = String::new();
    while let Some((place, code)) = refused.next() {
        let x = scale.middle(place) + 4.0;
        let free = refused.peek().map_or(end, |(next, _)| scale.middle(*next)) - x;
        if width(&code) <= free {
            out += &text(&ALERT, "start", x, y, &code);
        }
    }
    out
}

/// The running task's number where its box has room.
fn runners(picture: &Picture, scale: Scale) -> String {
    let mut out = String::new();
    for span in picture.running() {
        let (from, to) = (scale.x(span.from), scale.x(span.to));
        let said = if span.value == 0 {
            "none".to_string()
        } else {
            span.value.to_string()
        };
        if to - from >= width(&said) + 6.0 {
            let colour = if span.value == 0 { &FAINT } else { &INK };
            out += &text(colour, "middle", (from + to) / 2.0, Rows::running(), &said);
        }
    }
    out
}

/// What stands below a column.
fn label(column: &Column) -> String {
    match &column.refused {
        Some(code) => format!("{}  {code}", column.event),
        None => column.event.clone(),
    }
}

/// The events in words, aslant.
fn words(picture: &Picture, scale: Scale) -> String {
    if scale.column < WORDS {
        return String::new();
    }
    let y = Rows::of(picture).words();
    let mut out = String::new();
    for (place, column) in picture
        .columns
        .iter()
        .enumerate()
        .filter(|(_, column)| column.number > 0)
    {
        let colour = if column.refused.is_some() {
            &ALERT
        } else {
            &INK
        };
        let x = short(scale.middle(place) + 4.0);
        let (class, fill, said) = (colour.class, colour.light, escaped(&label(column)));
        out += &format!("<text class=\"{class}\" fill=\"{fill}\" text-anchor=\"end\" transform=\"translate({x} {}) rotate(-45)\">{said}</text>\n", short(y));
    }
    out
}

/// How far the words reach down.
pub fn words_height(picture: &Picture) -> f64 {
    let longest = picture
        .columns
        .iter()
        .map(|column| width(&label(column)))
        .fold(0.0, f64::max);
    longest * std::f64::consts::FRAC_1_SQRT_2 + 12.0
}

/// The event in words wherever one points at its column.
pub fn hints(picture: &Picture, scale: Scale) -> String {
    let height = short(Rows::of(picture).words());
    let width = short(scale.column);
    let hint = |(place, column): (usize, &Column)| {
        let x = short(scale.x(place));
        let said = escaped(&format!(
            "{}  {}  {}",
            column.number, column.event, column.answer
        ));
        format!("<rect x=\"{x}\" width=\"{width}\" height=\"{height}\" fill-opacity=\"0\"><title>{said}</title></rect>\n")
    };
    picture.columns.iter().enumerate().map(hint).collect()
}

#[cfg(test)]
mod tests {
    use super::*;

    #[test]
    fn labels_have_room() {
        assert_eq!(step(40.0, NUMBER), 1);
        assert_eq!(step(10.0, NUMBER), 5);
        assert_eq!(step(0.3, NUMBER), 200);
    }
}
