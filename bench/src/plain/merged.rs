//! Crates merged and merged_words: the words of the merged states, and the root's truth in one.

use super::instrument::Instrument;
use super::labels::{write_truth, Bars};
use super::marks::Mark;
use super::merging::{lowest_states, merge, merged_index};
use super::words::StateSet;

/// Of each component's classes, those that are FAIL of each node.
fn class_bars(names: &[Vec<u8>], marks: &[Vec<Mark>]) -> Bars {
    let classes = |names: &[u8], fail: StateSet| {
        let lowest = lowest_states(names).enumerate();
        lowest.fold(0, |set, (c, x)| set | (fail >> x & 1) << c)
    };
    let bars = |(names, marks): (&Vec<u8>, &Vec<Mark>)| {
        marks.iter().map(|mark| classes(names, mark.fail)).collect()
    };
    names.iter().zip(marks).map(bars).collect()
}

/// A word for every merged state: bit k the truth of node k if that is the root or stands under it.
pub fn write_merged(
    instrument: &Instrument,
    marks: &[Vec<Mark>],
    names: &[Vec<u8>],
    out: &mut [u32],
) {
    write_truth(&merge(instrument, names), &class_bars(names, marks), out);
    let mask = instrument.under_root();
    out.iter_mut().for_each(|word| *word &= mask);
}

/// The root's truth in the combined state of these states.
pub fn root_bit(
    instrument: &Instrument,
    names: &[Vec<u8>],
    merged: &[u32],
    states: [usize; 4],
) -> bool {
    merged[merged_index(names, states)] >> (instrument.nodes.len() - 1) & 1 == 1
}
