//! The bench's tools over the kernel's safe binding: a recorded run as text, as a list in words, as a picture. All that is said of the kernel comes from
//! its own functions; only words and drawing are made here.
#![forbid(unsafe_code)]

pub mod calls;
pub mod command;
pub mod compare;
pub mod html;
pub mod month;
pub mod picture;
pub mod run;
#[cfg(test)]
mod samples;
pub mod setup;
pub mod text;
