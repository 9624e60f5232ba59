//! Colours, in light and in dark. Those of the states are Okabe and Ito's, which colour-blind people can tell apart.
use okrozumba::TaskState;

/// A class of elements and its colour in light and in dark.
pub struct Colour {
    pub class: &'static str,
    pub light: &'static str,
    pub dark: &'static str,
}

const fn colour(class: &'static str, light: &'static str, dark: &'static str) -> Colour {
    Colour { class, light, dark }
}

/// By state's number. The classes are `s0` to `s6`.
pub const STATE: [Colour; TaskState::ALL.len()] = [
    colour("s0", "#b4bcc5", "#5d6873"),
    colour("s1", "#56b4e9", "#56b4e9"),
    colour("s2", "#009e73", "#009e73"),
    colour("s3", "#e69f00", "#e69f00"),
    colour("s4", "#cc79a7", "#cc79a7"),
    colour("s5", "#d55e00", "#d55e00"),
    colour("s6", "#f0e442", "#a59d2f"),
];

pub const PAPER: Colour = colour("paper", "#ffffff", "#14181d");
pub const INK: Colour = colour("ink", "#1b1f24", "#e8ecf0");
pub const FAINT: Colour = colour("faint", "#5c6670", "#9aa5b1");
pub const GRID: Colour = colour("grid", "#e3e7eb", "#2a3139");
pub const BAND: Colour = colour("band", "#d5dde6", "#37424e");
pub const DEPTH: Colour = colour("depth", "#4a5560", "#aab4bf");
/// Refused events, beside their sign.
pub const ALERT: Colour = colour("alert", "#b3261e", "#ff8a80");

const FILLS: [Colour; 7] = [PAPER, INK, FAINT, GRID, BAND, DEPTH, ALERT];

/// The style sheet of drawings and pages: the colours as variables, as fills, and as strokes of what has the class `line` too.
pub fn css() -> String {
    let light = rules(|colour| colour.light);
    let dark = rules(|colour| colour.dark);
    format!("{light}@media(prefers-color-scheme:dark){{{dark}}}")
}

fn rules(shade: fn(&Colour) -> &'static str) -> String {
    let all = || STATE.iter().chain(&FILLS);
    let variable = |colour: &Colour| format!("--{}:{};", colour.class, shade(colour));
    let rule = |colour: &Colour| {
        let (class, shade) = (colour.class, shade(colour));
        format!(".{class}{{fill:{shade}}}.line.{class}{{fill:none;stroke:{shade}}}")
    };
    let variables: String = all().map(variable).collect();
    format!(":root{{{variables}}}") + &all().map(rule).collect::<String>()
}
