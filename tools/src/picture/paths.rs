//! All that is drawn without text: it may be stretched along the columns.
use okrozumba::TaskState;

use super::layout::{short, Rows, Scale, DEPTHS, ROW, RUNNING};
use super::model::{Picture, Span};
use super::palette::{Colour, ALERT, BAND, DEPTH, FAINT, INK, PAPER, STATE};

const BAR: f64 = 16.0;
/// The height of a refused event's mark and of a tick's.
pub const STICK: f64 = 11.0;
const TICK: f64 = 7.0;

/// The height of a state's bar, so that states differ without colours too.
pub const HEIGHTS: [f64; TaskState::ALL.len()] = [5.0, 11.0, BAR, 11.0, 11.0, 11.0, 5.0];

/// The bar of a span.
pub fn bar(scale: Scale, span: &Span, top: f64, height: f64) -> String {
    let (from, to) = (scale.x(span.from), scale.x(span.to));
    let (from, to, top, height) = (short(from), short(to), short(top), short(height));
    format!("M{from} {top}H{to}v{height}H{from}z")
}

/// A dot: a line of no length with caps, so that stretching leaves it round.
pub fn mark(scale: Scale, column: usize, y: f64) -> String {
    format!("M{} {}h.01", short(scale.middle(column)), short(y))
}

/// An upright line in the middle of a column.
pub fn stick(scale: Scale, column: usize, top: f64, height: f64) -> String {
    format!("M{} {}v{height}", short(scale.middle(column)), short(top))
}

/// A path filled with a colour; nothing if there is nothing to draw.
pub fn filled(colour: &Colour, more: &str, path: &str) -> String {
    if path.is_empty() {
        return String::new();
    }
    format!(
        "<path class=\"{}\" fill=\"{}\"{more} d=\"{path}\"/>\n",
        colour.class, colour.light
    )
}

/// A path of lines or marks.
pub fn stroked(colour: &Colour, width: f64, cap: &str, path: &str) -> String {
    if path.is_empty() {
        return String::new();
    }
    format!(
        "<path class=\"line {}\" fill=\"none\" stroke=\"{}\" stroke-width=\"{}\" stroke-linecap=\"{cap}\" d=\"{path}\"/>\n",
        colour.class, colour.light, short(width)
    )
}

/// All that is drawn without text.
pub fn paths(picture: &Picture, scale: Scale) -> String {
    running(picture, scale)
        + &depths(picture, scale)
        + &lanes(picture, scale)
        + &marks(picture, scale)
}

fn running(picture: &Picture, scale: Scale) -> String {
    let spans = picture.running();
    let boxes: String = spans
        .iter()
        .filter(|span| span.value > 0)
        .map(|span| bar(scale, span, RUNNING, ROW))
        .collect();
    let edges = spans
        .iter()
        .skip(1)
        .map(|span| format!("M{} {RUNNING}v{ROW}", short(scale.x(span.from))));
    filled(&BAND, "", &boxes) + &stroked(&PAPER, 1.5, "butt", &edges.collect::<String>())
}

fn depths(picture: &Picture, scale: Scale) -> String {
    let level = ROW / f64::from(picture.deepest().max(2));
    let step = |span: &Span| {
        let height = level * f64::from(span.value);
        bar(scale, span, DEPTHS + ROW - height, height)
    };
    let spans = picture.depths();
    let steps: String = spans
        .iter()
        .filter(|span| span.value > 0)
        .map(step)
        .collect();
    filled(&DEPTH, CRISP, &steps)
}

const CRISP: &str = " shape-rendering=\"crispEdges\"";

/// One path for each state.
fn lanes(picture: &Picture, scale: Scale) -> String {
    let rows = Rows::of(picture);
    let mut out = String::new();
    for (state, colour) in STATE.iter().enumerate() {
        let mut path = String::new();
        for (place, lane) in picture.lanes.iter().enumerate() {
            let height = HEIGHTS[state];
            let top = rows.middle(place) - height / 2.0;
            let spans = lane
                .states
                .iter()
                .filter(|span| span.value as usize == state);
            path.extend(spans.map(|span| bar(scale, span, top, height)));
        }
        out += &filled(colour, CRISP, &path);
    }
    out
}

/// Releases, refused events and ticks.
fn marks(picture: &Picture, scale: Scale) -> String {
    let rows = Rows::of(picture);
    let mut dots = String::new();
    for (place, lane) in picture.lanes.iter().enumerate() {
        let middle = rows.middle(place);
        dots.extend(
            lane.released
                .iter()
                .map(|column| mark(scale, *column, middle)),
        );
    }
    let mut refused = String::new();
    let mut ticks = String::new();
    for (place, column) in picture.columns.iter().enumerate() {
        if column.refused.is_some() {
            refused += &stick(scale, place, rows.refused() - STICK / 2.0, STICK);
        }
        if column.is_tick {
            ticks += &stick(scale, place, rows.ticks(), TICK);
        }
    }
    stroked(&PAPER, 9.0, "round", &dots)
        + &stroked(&INK, 6.0, "round", &dots)
        + &stroked(&ALERT, 2.5, "butt", &refused)
        + &stroked(&FAINT, 1.25, "butt", &ticks)
}

#[cfg(test)]
mod tests {
    use super::*;
    use crate::samples;

    /// As many bars of each state as its spans, at any scale.
    #[test]
    fn bars_are_the_spans() {
        for seed in 0..10 {
            let picture = samples::picture(seed);
            let paths = paths(
                &picture,
                Scale {
                    left: 0.0,
                    column: 1.0,
                },
            );
            for (state, colour) in STATE.iter().enumerate() {
                let spans = picture.lanes.iter().flat_map(|lane| &lane.states);
                let count = spans.filter(|span| span.value as usize == state).count();
                let class = format!("class=\"{}\"", colour.class);
                let bars = paths
                    .lines()
                    .filter(|line| line.contains(&class))
                    .map(|line| line.matches('z').count());
                assert_eq!(bars.sum::<usize>(), count);
            }
        }
    }
}
