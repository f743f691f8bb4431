//! The questions of document 01 about an instrument file, for Rust.
//!
//! Every function takes the bytes of a file, any bytes, and answers or refuses by document 01's number. The functions
//! that lend a buffer write their entries at its front and answer how many there are; entries past them stay as they
//! were, and a refused call leaves the whole buffer as it was.
//!
//! The answers come from functions that are proved (crates/pinthar of the repository). They hold their tables on the
//! stack, so each call runs on a thread of its own with enough of it. Many calls are cheaper inside [`on_stack`], which
//! starts that thread once.

mod entries;
mod raw;
mod refusal;
mod stack;
mod values;

pub use entries::{class_names, full_words, listing, mark_words, merged_words};
pub use entries::{MOST_MARKS, MOST_NAMES, MOST_TEXT, MOST_WORDS};
pub use refusal::Refusal;
pub use stack::on_stack;
pub use values::{component, lookup, verdict, Stage, Verdict};
