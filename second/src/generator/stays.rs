//! Stays of a drawn instrument: more of them, and both ways to write them.
//! Document 02, 2/14.

use crate::instrument::Instrument;
use crate::prng::Prng;
use crate::stays::{is_stay, Stay};

/// Of ten instruments, eight keep their successor sets. In one, about a fifth of
/// the sets are replaced by stays; in one, about half.
pub fn add_stays(prng: &mut Prng, instrument: &mut Instrument) {
    let percentage = match prng.below(10) {
        0..=7 => return,
        8 => 20,
        _ => 50,
    };
    each_set(instrument, |state, set| {
        if prng.percent(percentage) {
            *set = Stay::SpelledOut.set(state);
        }
    });
}

/// Of ten instruments, five keep every stay spelled out. In four, about half of
/// the stays become empty sets; in one, all do.
pub fn respell(prng: &mut Prng, instrument: &mut Instrument) {
    let percentage = match prng.below(10) {
        0..=4 => return,
        5..=8 => 50,
        _ => 100,
    };
    each_set(instrument, |state, set| {
        if is_stay(set, state) && prng.percent(percentage) {
            *set = Stay::Empty.set(state);
        }
    });
}

/// Goes through the successor sets of all components, each with its state.
fn each_set(instrument: &mut Instrument, mut change: impl FnMut(usize, &mut Vec<usize>)) {
    for table in &mut instrument.tables {
        for (state, sets) in table.sets.as_written_mut().iter_mut().enumerate() {
            for set in sets {
                change(state, set);
            }
        }
    }
}
