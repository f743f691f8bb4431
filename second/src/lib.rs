//! A second checker for instrument files, written from document 01 alone.
//!
//! Everything here is literal: sets are lists of levels, and loops go over
//! everything. Section names in the comments are those of document 01.

pub mod answer;
pub mod bench;
pub mod check;
pub mod classes;
pub mod combination;
pub mod command;
pub mod counts;
pub mod damage;
pub mod examples;
pub mod fields;
pub mod generator;
pub mod instrument;
pub mod lamps;
pub mod lasso;
pub mod lent;
pub mod limits;
pub mod listing;
pub mod marks;
pub mod merged;
pub mod notation;
pub mod number;
pub mod partners;
pub mod paths;
pub mod prng;
pub mod queries;
pub mod question;
pub mod reader;
pub mod reading;
pub mod reduce;
pub mod refusal;
pub mod relation;
pub mod self_check;
pub mod stays;
pub mod store;
pub mod truth;
pub mod verdict;
pub mod word;
