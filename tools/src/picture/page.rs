//! The page: the drawing in a window that a script moves and zooms, and the event in words where one points.
use okrozumba::TaskState;

use super::labels::{names, words_height};
use super::layout::{Rows, Scale, BASE, LANE, LEFT, NUMBER, RIGHT, WORDS};
use super::legend;
use super::model::{Column, Picture, Span};
use super::paths::paths;
use crate::html::{self, array, escaped, quoted};
use crate::run;

/// The page of a picture.
pub fn page(picture: &Picture) -> String {
    let title = escaped(&picture.title);
    let refusal = match picture.refusal {
        Some(bad) => format!(
            "<p class=\"alert-text\">{}</p>\n",
            escaped(&run::refusal(bad))
        ),
        None => String::new(),
    };
    let body = format!(
        "<h1>{title}</h1>\n<p>{}</p>\n{refusal}{}{}{}<script>\nconst run = {};\n{}</script>\n",
        escaped(&picture.summary()),
        legend::drawing(),
        include_str!("bar.html"),
        drawing(picture),
        data(picture),
        include_str!("page.js"),
    );
    html::page(&picture.title, include_str!("page.css"), &body)
}

/// The drawing at one unit for each column, in a window that the script stretches.
fn drawing(picture: &Picture) -> String {
    let height = Rows::of(picture).words();
    let columns = picture.columns.len();
    let whole = Scale {
        left: 0.0,
        column: 1.0,
    };
    format!(
        "<div id=\"frame\" tabindex=\"0\">\n<svg id=\"drawing\" role=\"img\" aria-label=\"{}\" width=\"100%\" height=\"{height}\">\n{}\
         <svg id=\"window\" x=\"{}\" width=\"80%\" height=\"{height}\" viewBox=\"0 0 {columns} {height}\" preserveAspectRatio=\"none\">\n\
         <rect id=\"pointed\" class=\"ink\" fill-opacity=\"0\" width=\"1\" height=\"{height}\"/>\n{}</svg>\n<g id=\"labels\"></g>\n</svg>\n\
         <div id=\"scroll\"><div></div></div>\n<div id=\"told\" hidden></div>\n</div>\n",
        escaped(&picture.summary()),
        names(picture),
        LEFT,
        paths(picture, whole),
    )
}

/// What the script knows of the run.
fn data(picture: &Picture) -> String {
    let rows = Rows::of(picture);
    let columns = &picture.columns;
    let text = |said: fn(&Column) -> &str| array(columns, |column| quoted(said(column)));
    let ticks = columns
        .iter()
        .enumerate()
        .filter(|(_, column)| column.is_tick);
    let lanes = array(&picture.lanes, |lane| {
        format!(
            "{{task:{},top:{},states:{}}}",
            lane.task,
            rows.top(lane.task as usize - 1),
            spans(&lane.states)
        )
    });
    let refused = array(columns, |column| {
        column.refused.as_deref().map_or("0".to_string(), quoted)
    });
    [
        format!(
            "{{first:{},columns:{}",
            columns.first().map_or(0, |column| column.number),
            columns.len()
        ),
        format!(
            "left:{},right:{},words:{},number:{}",
            LEFT, RIGHT, WORDS, NUMBER
        ),
        format!(
            "runningY:{},refusedY:{},numbersY:{},ticksY:{},wordsY:{}",
            Rows::running(),
            rows.refused() + BASE,
            rows.numbers(),
            rows.times(),
            rows.words()
        ),
        format!(
            "wordsHeight:{},laneHeight:{}",
            words_height(picture).ceil(),
            LANE
        ),
        format!(
            "names:{}",
            array(TaskState::ALL, |state| quoted(state.name()))
        ),
        format!("events:{}", text(|column| &column.event)),
        format!("answers:{}", text(|column| &column.answer)),
        format!("refused:{refused}"),
        format!("running:{}", spans(&picture.running())),
        format!("depths:{}", spans(&picture.depths())),
        format!(
            "ticks:{}",
            array(ticks, |(place, column)| format!(
                "[{place},{}]",
                column.time
            ))
        ),
        format!("lanes:{lanes}}}"),
    ]
    .join(",\n")
}

fn spans(spans: &[Span]) -> String {
    array(spans, |span| {
        format!("[{},{},{}]", span.from, span.to, span.value)
    })
}
