//! The drawing alone, as a file of its own, with all names and numbers at a fixed scale.
use super::labels::{hints, labels, names, text, words_height};
use super::layout::{short, width, Rows, Scale, LEFT, RIGHT, WORDS};
use super::legend::{legend, LEGEND};
use super::model::Picture;
use super::palette::{self, ALERT, FAINT, INK, PAPER};
use super::paths::paths;
use crate::html::escaped;
use crate::run;

/// The widest plot, and the widest column.
const PLOT: f64 = 1000.0;
const COLUMN: f64 = 80.0;
/// The height of title, summary and legend.
const HEAD: f64 = 92.0;

/// The drawing of a picture.
pub fn alone(picture: &Picture) -> String {
    let columns = picture.columns.len() as f64;
    let scale = Scale {
        left: LEFT,
        column: (PLOT / columns).min(COLUMN),
    };
    let has_words = scale.column >= WORDS;
    let below = if has_words {
        words_height(picture)
    } else {
        0.0
    };
    let wide = (scale.x(picture.columns.len()) + RIGHT).max(LEGEND);
    let high = HEAD + Rows::of(picture).words() + below;
    [
        open(picture, wide.ceil(), high.ceil()),
        head(picture),
        format!("<g transform=\"translate(0 {HEAD})\">\n"),
        names(picture),
        paths(picture, scale),
        labels(picture, scale),
        hints(picture, scale),
        "</g>\n</svg>\n".to_string(),
    ]
    .concat()
}

/// The element that holds all, its colours and its ground.
fn open(picture: &Picture, wide: f64, high: f64) -> String {
    let (title, css, paper) = (escaped(&picture.title), palette::css(), PAPER.light);
    let (wide, high) = (short(wide), short(high));
    format!(
        "<svg xmlns=\"http://www.w3.org/2000/svg\" width=\"{wide}\" height=\"{high}\" viewBox=\"0 0 {wide} {high}\" \
         font-family=\"system-ui, 'Segoe UI', 'Helvetica Neue', Arial, 'Liberation Sans', sans-serif\" font-size=\"11.5\">\n\
         <title>{title}</title>\n<style>{css}</style>\n\
         <rect class=\"paper\" fill=\"{paper}\" width=\"100%\" height=\"100%\"/>\n"
    )
}

/// Title, summary with the run's fault, and legend.
fn head(picture: &Picture) -> String {
    let title = text(&INK, "start", 4.0, 24.0, &picture.title);
    let summary = picture.summary();
    let behind = 4.0 + width(&summary) + 16.0;
    let refusal = match picture.refusal {
        Some(bad) => text(&ALERT, "start", behind, 44.0, &run::refusal(bad)),
        None => String::new(),
    };
    [
        format!("<g font-size=\"17\" font-weight=\"600\">{title}</g>\n"),
        text(&FAINT, "start", 4.0, 44.0, &summary),
        refusal,
        legend(68.0),
    ]
    .concat()
}

#[cfg(test)]
mod tests {
    use super::*;
    use crate::samples;

    /// Every element is closed, in order; no sign stands bare.
    fn is_well_formed(text: &str) -> bool {
        let mut open = Vec::new();
        for part in text.split('<').skip(1) {
            let Some((tag, said)) = part.split_once('>') else {
                return false;
            };
            if said.contains('>') || tag.matches('"').count() % 2 == 1 {
                return false;
            }
            let name = tag
                .trim_start_matches('/')
                .split([' ', '/'])
                .next()
                .unwrap_or("");
            match (tag.starts_with('/'), tag.ends_with('/')) {
                (true, _) if open.pop() != Some(name) => return false,
                (false, false) => open.push(name),
                _ => {}
            }
        }
        open.is_empty()
    }

    #[test]
    fn drawings_are_well_formed() {
        for seed in 0..10 {
            assert!(is_well_formed(&alone(&samples::picture(seed))));
        }
        assert!(!is_well_formed("<a><b></a></b>"));
        assert!(!is_well_formed("<a>X>y</a>"));
    }
}
