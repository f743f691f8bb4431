//! Instruments with components of more than 32 states.

use super::{all_to_zero, counter, counters};
use crate::instrument::{Instrument, Node, Table, WrittenSets};
use crate::word::bit;

/// One component with the given number of states, each of which goes to the last.
pub fn all_to_last(states: usize) -> Instrument {
    let mut instrument = all_to_zero(states);
    instrument.tables[0].sets = WrittenSets::new(vec![vec![vec![states - 1]]; states]);
    instrument
}

/// A counter whose states are all PASS, or all FAIL, of every node but its signal.
pub fn marked_all(states: usize) -> Instrument {
    let nodes = vec![
        Node::True,
        Node::Not(0),
        Node::Or(0, 1),
        Node::Ex(0),
        Node::Ex(1),
        Node::Eg(0),
        Node::Eg(1),
        Node::Eu(0, 0),
        Node::Eu(0, 1),
        Node::Signal(0),
        Node::Eu(0, 9),
        Node::Eg(9),
        Node::Or(10, 11),
    ];
    Instrument { nodes, ..counters(&[states]) }
}

/// A stage of 51 states beside a lid. The stage moves only while the lid is shut:
/// from home, state 0, on to its end, state 50, and from there back home. The lid
/// is shut in state 0, open in state 1, and changes while the external signal 3 is
/// high. Signal 0 is high at home, 1 at the end, 2 while the lid is shut.
pub fn stage() -> Instrument {
    let next = |s: usize| if s == 50 { vec![0] } else { vec![s + 1] };
    let stage = Table {
        inputs: vec![2],
        outputs: vec![0, 1],
        levels: (0..51).map(|s| vec![s == 0, s == 50]).collect(),
        sets: WrittenSets::new((0..51).map(|s| vec![vec![s], next(s)]).collect()),
    };
    let lid = Table {
        inputs: vec![3],
        outputs: vec![2],
        levels: vec![vec![true], vec![false]],
        sets: WrittenSets::new(vec![vec![vec![0], vec![1]], vec![vec![1], vec![0]]]),
    };
    // Some path reaches the end; some path never does; one step to the end.
    let nodes = vec![
        Node::True,
        Node::Signal(1),
        Node::Eu(0, 1),
        Node::Not(1),
        Node::Eg(3),
        Node::Ex(1),
        Node::Not(4),
        Node::Or(5, 6),
        Node::Not(7),
        Node::Eu(0, 8),
    ];
    let starts = vec![vec![0, 0], vec![50, 1], vec![25, 0]];
    Instrument { signals: 4, tables: vec![stage, lid], nodes, starts }
}

/// A counter of 64 states that moves only while the external signal 2 is high,
/// beside one of 3 states.
pub fn gated() -> Instrument {
    let mut instrument = counters(&[64, 3]);
    let gated = &mut instrument.tables[0];
    gated.inputs = vec![2];
    let sets = (0..64).map(|s| vec![vec![s], vec![(s + 1) % 64]]).collect();
    gated.sets = WrittenSets::new(sets);
    instrument.signals = 3;
    instrument
}

/// State 63 goes to 0, 0 on to 1 and so on up to 62, which stays and drives the
/// signal. All states are told apart by their way to 62, the last one last.
pub fn chain_from_last() -> Instrument {
    let mut instrument = counters(&[64, 2]);
    let chain = &mut instrument.tables[0];
    chain.levels = (0..64).map(|s| vec![s == 62]).collect();
    let next = |s: usize| if s == 62 { 62 } else { (s + 1) % 64 };
    chain.sets = WrittenSets::new((0..64).map(|s| vec![vec![next(s)]]).collect());
    instrument
}

/// The chain of document 01 at the end of a chain of 64 states: 61 and 62 drive
/// signal 6, are one class, and are FAIL of EG of it, so the guard is needed at
/// that class. The levels of signals 0 to 5 keep the others apart.
pub fn guarded_pair() -> Instrument {
    let number = |s: usize| if s > 61 { s - 1 } else { s };
    let levels = |s: usize| {
        let mut levels: Vec<bool> = (0..6).map(|j| bit(number(s) as u64, j)).collect();
        levels.push(s == 61 || s == 62);
        levels
    };
    let chain = Table {
        inputs: vec![],
        outputs: (0..7).collect(),
        levels: (0..64).map(levels).collect(),
        sets: WrittenSets::new((0..64).map(|s| vec![vec![(s + 1).min(63)]]).collect()),
    };
    let mut nodes: Vec<Node> = (0..8).map(Node::Signal).collect();
    nodes.push(Node::Eg(6));
    for k in 0..6 {
        nodes.push(Node::Or(nodes.len() - 1, k));
    }
    nodes.push(Node::Or(nodes.len() - 1, 7));
    let starts = vec![vec![1, 61], vec![1, 62], vec![1, 0], vec![0, 63]];
    Instrument { signals: 8, tables: vec![counter(2, 7), chain], nodes, starts }
}
