//! A case for each way to be refused. Document 01, "Refused".

use super::wide_rows;
use super::Case;
use crate::examples::{stays, CHAIN, PAIR};

/// 2^64 - 1.
const LARGEST: [u8; 10] = [255, 255, 255, 255, 255, 255, 255, 255, 255, 1];

/// A file with one fault, and the number it gets.
pub struct Row {
    pub name: String,
    pub file: Vec<u8>,
    pub number: usize,
}

pub fn cases() -> Vec<Case> {
    let asked = [[0, 0, 0, 0], [4_294_967_295, 1, 0, 7]];
    let case = |row: Row| Case::of(&row.name, row.file, &asked);
    rows().into_iter().map(case).collect()
}

pub fn rows() -> Vec<Row> {
    let mut rows = number_rows();
    rows.extend(count_rows());
    rows.extend(table_rows());
    rows.extend(formula_and_start_rows());
    rows.extend(empty_set_rows());
    rows.extend(wide_rows::rows());
    rows
}

/// The file with other bytes instead of the one at the place.
pub fn changed(name: &str, file: &[u8], place: usize, bytes: &[u8], number: usize) -> Row {
    let mut changed = file[..place].to_vec();
    changed.extend(bytes);
    changed.extend(&file[place + 1..]);
    Row { name: name.to_string(), file: changed, number }
}

/// The file cut after the given bytes at the place.
pub fn cut(name: &str, file: &[u8], place: usize, bytes: &[u8], number: usize) -> Row {
    let mut cut = file[..place].to_vec();
    cut.extend(bytes);
    Row { name: name.to_string(), file: cut, number }
}

/// 1 and 2: the file ends; the form is not the shortest or the value too high.
fn number_rows() -> Vec<Row> {
    vec![
        cut("r01_signals", &CHAIN, 1, &[], 1),
        cut("r01_word", &CHAIN, 7, &[], 1),
        cut("r01_last", &CHAIN, 18, &[], 1),
        cut("r01_in_number", &CHAIN, 9, &[130], 1),
        cut("r01_four_bytes", &CHAIN, 9, &[130, 128, 128, 128], 1),
        changed("r02_two_bytes", &CHAIN, 9, &[130, 0], 2),
        changed("r02_three_bytes", &CHAIN, 9, &[130, 128, 0], 2),
        changed("r02_five_bytes", &CHAIN, 9, &[130, 128, 128, 128, 0], 2),
        changed("r02_count", &CHAIN, 0, &[133, 0], 2),
    ]
}

/// 3: a count outside its range.
fn count_rows() -> Vec<Row> {
    vec![
        changed("r03_components_0", &CHAIN, 0, &[0], 3),
        changed("r03_components_5", &CHAIN, 0, &[5], 3),
        changed("r03_signals_13", &CHAIN, 1, &[13], 3),
        changed("r03_states_0", &CHAIN, 2, &[0], 3),
        changed("r03_states_65", &CHAIN, 2, &[65], 3),
        changed("r03_inputs_5", &CHAIN, 3, &[5], 3),
        changed("r03_outputs_9", &CHAIN, 4, &[9], 3),
        changed("r03_nodes_0", &CHAIN, 12, &[0], 3),
        changed("r03_nodes_25", &CHAIN, 12, &[25], 3),
        changed("r03_starts_65", &CHAIN, 17, &[65], 3),
        changed("r03_largest", &CHAIN, 17, &LARGEST, 3),
    ]
}

/// 4, 5 and 6: listed signals, output words and successor sets.
fn table_rows() -> Vec<Row> {
    // One component that lists the inputs 0 and 1 of four signals, and an output.
    let two_inputs = [1, 4, 1, 2, 0, 1, 1, 2, 0, 1, 1, 1, 1, 1, 0, 0];
    // One component that lists the outputs 1 and 2 of four signals.
    let two_outputs = [1, 4, 1, 0, 2, 1, 2, 0, 1, 1, 0, 0];
    vec![
        changed("r04_input_high", &PAIR, 4, &[2], 4),
        changed("r04_output_high", &PAIR, 6, &[2], 4),
        changed("r04_in_largest", &PAIR, 4, &LARGEST, 4),
        changed("r04_out_largest", &PAIR, 6, &LARGEST, 4),
        changed("r04_in_repeated", &two_inputs, 5, &[0], 4),
        changed("r04_in_lower", &[1, 4, 1, 2, 2, 1], 5, &[1], 4),
        changed("r04_out_repeated", &two_outputs, 6, &[1], 4),
        changed("r04_out_lower", &two_outputs, 6, &[0], 4),
        changed("r05_driven", &PAIR, 16, &[0], 5),
        changed("r05_own_input", &PAIR, 6, &[1], 5),
        // Driven already and not ascending: 4 before 5.
        changed("r04_before_5", &[2, 2, 1, 0, 1, 0, 0, 1, 1, 0, 2, 1, 0], 12, &[0], 4),
        changed("r06_word", &CHAIN, 6, &[2], 6),
        changed("r06_word_none", &[1, 0, 1, 0, 0, 0, 1, 1, 0, 0], 5, &[1], 6),
        changed("r06_set_high", &CHAIN, 10, &[8], 6),
        changed("r06_word_largest", &CHAIN, 6, &LARGEST, 6),
        changed("r06_set_largest", &CHAIN, 10, &LARGEST, 6),
    ]
}

/// Faults beside empty successor sets, and in their form. Document 02, 2/14.
fn empty_set_rows() -> Vec<Row> {
    // The chain up to its successor sets.
    let chain = &CHAIN[..9];
    // Its nodes and start.
    let rest = &CHAIN[12..];
    let with = |name: &str, sets: &[u8], number: usize| Row {
        name: name.to_string(),
        file: [chain, sets, rest].concat(),
        number,
    };
    let ten = [128, 128, 128, 128, 128, 128, 128, 128, 128, 0];
    vec![
        cut("r01_empty_first", &CHAIN, 9, &[0], 1),
        cut("r01_empty_last", &CHAIN, 9, &[0, 0, 0], 1),
        cut("r01_pair_empty", &PAIR, 9, &[0, 1, 2, 0], 1),
        with("r02_empty_first", &[128, 0, 0, 0], 2),
        with("r02_empty_last", &[2, 4, 128, 0], 2),
        with("r02_empty_3b", &[0, 128, 128, 0, 0], 2),
        with("r02_empty_10b", &[&ten[..], &[0, 0]].concat(), 2),
        with("r06_after_empty", &[0, 0, 8], 6),
        with("r06_between", &[0, 8, 0], 6),
        with("r06_before_empty", &[8, 0, 0], 6),
        with("r06_largest_then", &[&LARGEST[..], &[0, 0]].concat(), 6),
        with("r06_and_good", &[0, 0, 12], 6),
        // The first fault is the first set's, the second set's form comes after it.
        with("r06_then_form", &[8, 128, 0, 0], 6),
        with("r02_then_high", &[128, 0, 8, 0], 2),
        // A bit at the state count beside empty sets, of a pair with an input.
        changed("r06_pair_empty", &stays::PAIR, 11, &[4], 6),
        changed("r06_pair_word", &stays::PAIR, 8, &[2], 6),
        changed("r06_pair_last", &stays::PAIR, 20, &[4], 6),
    ]
}

/// 7, 8, 9 and 10: nodes, starts and bytes after them.
fn formula_and_start_rows() -> Vec<Row> {
    let undriven = [1, 2, 1, 0, 1, 0, 1, 1, 1, 1, 0, 0];
    vec![
        changed("r07_kind", &CHAIN, 15, &[7], 7),
        cut("r07_kind_end", &CHAIN, 15, &[7], 7),
        changed("r07_kind_largest", &CHAIN, 13, &LARGEST, 7),
        changed("r07_op_largest", &CHAIN, 16, &LARGEST, 7),
        changed("r07_itself", &CHAIN, 16, &[1], 7),
        changed("r07_later", &CHAIN, 16, &[2], 7),
        cut("r07_first_end", &CHAIN, 15, &[6, 1], 7),
        changed("r07_second", &CHAIN, 15, &[6, 0, 1], 7),
        changed("r07_first_node", &CHAIN, 13, &[2], 7),
        changed("r08_external", &undriven, 10, &[1], 8),
        changed("r08_not_below_w", &CHAIN, 14, &[1], 8),
        changed("r08_largest", &CHAIN, 14, &LARGEST, 8),
        changed("r09_start", &CHAIN, 18, &[3], 9),
        changed("r09_second", &PAIR, 28, &[2], 9),
        cut("r09_end", &PAIR, 27, &[2], 9),
        changed("r09_largest", &PAIR, 28, &LARGEST, 9),
        changed("r10_byte", &CHAIN, 18, &[0, 0], 10),
        changed("r10_bad_number", &CHAIN, 18, &[0, 128, 0], 10),
        changed("r10_largest", &CHAIN, 18, &[&[0], &LARGEST[..]].concat(), 10),
    ]
}
