//! Drawings of an instrument's tables, with the classes and marks that the
//! proved program answers. Words and section names are those of document 01.

pub mod answers;
pub mod boxes;
pub mod command;
pub mod component;
pub mod conditions;
pub mod formula;
pub mod geometry;
pub mod graph;
pub mod labels;
pub mod legend;
pub mod lines;
pub mod matrix;
pub mod page;
pub mod palette;
pub mod picture;
pub mod program;
pub mod reasons;
pub mod ring;
pub mod svg;
