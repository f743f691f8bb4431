//! The limits of document 01, "The instrument file" and "Refused".

pub const COMPONENTS: usize = 4;
pub const SIGNALS: usize = 12;
pub const STATES: usize = 64;
pub const INPUTS: usize = 4;
pub const OUTPUTS: usize = 8;
pub const NODES: usize = 24;
pub const STARTS: usize = 64;

/// The most states of a full or merged combination that is built.
pub const COMBINED_STATES: usize = 4096;

/// How many bytes of standard input are read.
pub const BYTES_READ: usize = 49_153;

/// The length of a longest good file.
pub const LONGEST_GOOD_FILE: usize = 41_651;
