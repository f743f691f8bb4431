//! A text notation for instruments, described in NOTATION.md.

mod lines;
mod parse;
mod table;
mod write;

pub use lines::TextError;
pub use parse::from_text;
pub use write::to_text;
