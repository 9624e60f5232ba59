//! A picture of a recorded run: a lane for each task, its state after each event.
pub mod labels;
pub mod layout;
pub mod legend;
pub mod model;
pub mod page;
pub mod painter;
pub mod palette;
pub mod paths;
pub mod svg;
