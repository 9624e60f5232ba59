//! What colours and marks mean.
use okrozumba::TaskState;

use super::labels::text;
use super::layout::{width, Scale, BASE};
use super::model::Span;
use super::palette::{ALERT, INK, STATE};
use super::paths::{bar, filled, mark, stick, stroked, HEIGHTS, STICK};

/// The width that the legend takes.
pub const LEGEND: f64 = 850.0;

/// A part of the legend: its drawing, 18 wide, then its name.
fn key(drawn: &str, x: &mut f64, y: f64, name: &str) -> String {
    let out = drawn.to_string() + &text(&INK, "start", *x + 24.0, y + BASE, name);
    *x += 24.0 + width(name) + 16.0;
    out
}

/// The states' names beside their bars, then the marks.
pub fn legend(y: f64) -> String {
    let mut x = 4.0;
    let mut out = String::new();
    for ((state, colour), height) in TaskState::ALL.iter().zip(&STATE).zip(HEIGHTS) {
        let drawn = filled(
            colour,
            "",
            &bar(sample(x), &FIRST, y - height / 2.0, height),
        );
        out += &key(&drawn, &mut x, y, state.name());
    }
    let released = stroked(&INK, 6.0, "round", &mark(sample(x), 0, y));
    out += &key(&released, &mut x, y, "released");
    let stick = stick(sample(x), 0, y - STICK / 2.0, STICK);
    out + &key(&stroked(&ALERT, 2.5, "butt", &stick), &mut x, y, "refused")
}

/// One column, as wide as a sample in the legend.
const FIRST: Span = Span {
    from: 0,
    to: 1,
    value: 0,
};

fn sample(left: f64) -> Scale {
    Scale { left, column: 18.0 }
}

/// The legend as a drawing of its own, for a page.
pub fn drawing() -> String {
    format!("<svg class=\"legend\" width=\"{LEGEND}\" height=\"24\" viewBox=\"0 0 {LEGEND} 24\">\n{}</svg>\n", legend(12.0))
}
