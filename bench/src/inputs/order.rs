//! A total order of 4,096 states: from each to all later ones, in the order of indices, and from
//! the last to itself. EG of "not among the last" takes states out one by one from the end, and
//! each has all the earlier ones as predecessors, which are then looked at again.

use super::formulas::only_eg;
use super::Input;
use second::instrument::{Instrument, Table, WrittenSets};

const SIZES: [usize; 3] = [4, 32, 32];
const WIDE_SIZES: [usize; 3] = [1, 64, 64];

/// Two external signals, 3 and 4, choose which component goes up: those above it stay, those below
/// go anywhere. A component at its end hands the choice to the next; at all ends, all stay.
fn goes_up(asked: usize, ends: [bool; 3]) -> Option<usize> {
    let first = asked % 3;
    (0..3).map(|k| (first + k) % 3).find(|&c| !ends[c])
}

/// Component c drives signal c at its end and reads the two others' and both external signals.
fn table(c: usize, states: usize) -> Table {
    let others: Vec<usize> = (0..3).filter(|&other| other != c).collect();
    let successors = |s: usize, assignment: usize| -> Vec<usize> {
        let mut ends = [false; 3];
        ends[c] = s == states - 1;
        for (j, &other) in others.iter().enumerate() {
            ends[other] = assignment >> j & 1 == 1;
        }
        match goes_up(assignment >> 2, ends) {
            Some(up) if up == c => (s + 1..states).collect(),
            Some(up) if up > c => (0..states).collect(),
            _ => vec![s],
        }
    };
    Table {
        inputs: vec![others[0], others[1], 3, 4],
        outputs: vec![c],
        levels: (0..states).map(|s| vec![s == states - 1]).collect(),
        sets: WrittenSets::new(
            (0..states).map(|s| (0..16).map(|a| successors(s, a)).collect()).collect(),
        ),
    }
}

/// EG of "component 2 is not at its end", which leaves out the last 128 states, or the last 64.
fn order(sizes: [usize; 3], more: Option<Table>, starts: Vec<Vec<usize>>) -> Instrument {
    let mut tables: Vec<Table> = (0..3).map(|c| table(c, sizes[c])).collect();
    tables.extend(more);
    Instrument { signals: 5, tables, nodes: only_eg(2), starts }
}

pub fn inputs() -> Vec<Input> {
    let of = |name: &str, sizes| Input::new(name, &order(sizes, None, vec![]));
    vec![
        of("total order, 22 EG over one signal", SIZES),
        of("total order 64 x 64, 22 EG over one signal", WIDE_SIZES),
    ]
}

/// Beside it a component of one class, so that the full way has too many.
pub fn short_inputs() -> Vec<Input> {
    let of = |name: &str, sizes, states: usize| {
        let still = Table {
            inputs: vec![],
            outputs: vec![],
            levels: vec![vec![]; states],
            sets: WrittenSets::new(vec![vec![(0..states).collect()]; states]),
        };
        Input::new(name, &order(sizes, Some(still), vec![vec![0; 4]; 64]))
    };
    vec![
        of("merged to a total order, 22 EG over one signal", SIZES, 32),
        of("merged to a total order 64 x 64, 22 EG over one signal", WIDE_SIZES, 64),
    ]
}
