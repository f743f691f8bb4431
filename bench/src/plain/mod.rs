//! The questions in plain Rust, by the algorithms of the proved crates: same tables, same work
//! lists, same order of work. Each file names the crate whose work it does. build.rs compiles this
//! file a second time, as a crate of its own for the native processor.

mod classes;
mod instrument;
mod labels;
mod marks;
mod merged;
mod merging;
mod operators;
mod product;
mod questions;
mod reader;
mod refusal;
mod relations;
mod report;
mod sets;
mod steps;
mod transpose;
mod verdict;
mod words;

pub use questions::{class_names, full_words, listing, lookup, mark_words, merged_words, verdict};
