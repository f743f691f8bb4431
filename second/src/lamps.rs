//! Which outputs the rule of EX, EG and EU compares: those that another component
//! lists as an input. The others are lamps. Document 02, 3/14.

use crate::instrument::{Instrument, Table};
use crate::reading::Reading;

/// For each output of component c, in listed order, whether another component,
/// earlier or later, lists it as an input. Whether a step depends on the input does
/// not matter.
pub fn read_outputs(tables: &[Table], c: usize) -> Vec<bool> {
    let mut read = Vec::new();
    for &signal in &tables[c].outputs {
        read.push((0..tables.len()).any(|d| d != c && tables[d].inputs.contains(&signal)));
    }
    read
}

/// For each output of component c, whether two states need the same level of it.
pub fn compared_outputs(tables: &[Table], c: usize, reading: Reading) -> Vec<bool> {
    let listing = |signal: usize, wanted: &dyn Fn(usize) -> bool| {
        (0..tables.len()).any(|d| d != c && wanted(d) && tables[d].inputs.contains(&signal))
    };
    let outputs = tables[c].outputs.iter();
    match reading {
        Reading::WholeOutputWords => outputs.map(|_| true).collect(),
        Reading::WithoutEqualOutputs => outputs.map(|_| false).collect(),
        Reading::ReadByLaterOnly => outputs.map(|&s| listing(s, &|d| d > c)).collect(),
        Reading::ReadByEarlierOnly => outputs.map(|&s| listing(s, &|d| d < c)).collect(),
        Reading::UsedInsteadOfListed => {
            outputs.map(|&s| listing(s, &|d| uses(&tables[d], s, reading))).collect()
        }
        _ => read_outputs(tables, c),
    }
}

/// Whether some step of the table depends on the signal: two assignments that differ
/// in this input only have different successors. Only for a wrong reading.
fn uses(table: &Table, signal: usize, reading: Reading) -> bool {
    let Some(j) = table.inputs.iter().position(|&input| input == signal) else {
        return false;
    };
    let value = 1 << j;
    let differs = |s: usize, low: usize| {
        table.successors(s, low, reading) != table.successors(s, low + value, reading)
    };
    let low = |assignment: &usize| assignment & value == 0;
    (0..table.states()).any(|s| (0..table.assignments()).filter(low).any(|a| differs(s, a)))
}

/// For each output of component c, whether nothing in the file looks at it: no other
/// component lists it and the formula does not name it.
pub fn unseen_outputs(instrument: &Instrument, c: usize) -> Vec<bool> {
    let named = instrument.named_signals();
    let read = read_outputs(&instrument.tables, c);
    let outputs = &instrument.tables[c].outputs;
    (0..outputs.len()).map(|j| !read[j] && !named.contains(&outputs[j])).collect()
}
