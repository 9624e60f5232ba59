//! A recorded run as text that people write and read: [`assemble`](reader::assemble) makes its file of it, [`list`](writer::list) writes it back
//! with the answers. docs/FORMAT.md has the grammar.
pub mod draft;
pub mod line;
pub mod reader;
pub mod words;
pub mod writer;
