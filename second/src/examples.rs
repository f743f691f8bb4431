//! The bench cases of document 01, and instruments at its limits.

pub mod lamps;
pub mod stays;
pub mod wide;

use crate::instrument::{Instrument, Node, Table, WrittenSets};
use crate::limits;

/// The chain as document 01 prints it.
pub const CHAIN: [u8; 19] = [1, 1, 3, 0, 1, 0, 1, 1, 0, 2, 4, 4, 2, 1, 0, 5, 0, 1, 0];

/// The pair as document 01 prints it.
pub const PAIR: [u8; 29] =
    [2, 2, 2, 1, 1, 1, 0, 1, 0, 2, 1, 2, 2, 2, 0, 1, 1, 1, 0, 3, 2, 2, 1, 0, 5, 0, 1, 0, 0];

/// The chain with another formula; start 0.
pub fn chain_with(nodes: &[Node]) -> Instrument {
    let table = Table {
        inputs: vec![],
        outputs: vec![0],
        levels: vec![vec![true], vec![true], vec![false]],
        sets: WrittenSets::new(vec![vec![vec![1]], vec![vec![2]], vec![vec![2]]]),
    };
    Instrument { signals: 1, tables: vec![table], nodes: nodes.to_vec(), starts: vec![vec![0]] }
}

/// The pair with another start.
pub fn pair_from(first: u8, second: u8) -> Vec<u8> {
    let mut file = PAIR.to_vec();
    file[27] = first;
    file[28] = second;
    file
}

/// A component that goes through its states in turn and drives the signal high
/// in state 0 only.
pub fn counter(states: usize, signal: usize) -> Table {
    Table {
        inputs: vec![],
        outputs: vec![signal],
        levels: (0..states).map(|s| vec![s == 0]).collect(),
        sets: WrittenSets::new((0..states).map(|s| vec![vec![(s + 1) % states]]).collect()),
    }
}

/// One component with the given number of states, each of which goes to state 0.
pub fn all_to_zero(states: usize) -> Instrument {
    let mut table = counter(states, 0);
    table.sets = WrittenSets::new(vec![vec![vec![0]]; states]);
    let nodes = vec![Node::Signal(0), Node::Ex(0)];
    Instrument { signals: 1, tables: vec![table], nodes, starts: vec![vec![states - 1]] }
}

/// One counter for each size; the formula says that some path reaches a state
/// where all of them are in state 0.
pub fn counters(sizes: &[usize]) -> Instrument {
    let tables: Vec<Table> = (0..sizes.len()).map(|c| counter(sizes[c], c)).collect();
    let mut nodes = vec![Node::True, Node::Signal(0), Node::Not(1)];
    let mut some_not_at_zero = 2;
    for c in 1..sizes.len() {
        let k = nodes.len();
        nodes.extend([Node::Signal(c), Node::Not(k), Node::Or(some_not_at_zero, k + 1)]);
        some_not_at_zero = k + 2;
    }
    nodes.push(Node::Not(some_not_at_zero));
    nodes.push(Node::Eu(0, nodes.len() - 1));
    Instrument { signals: sizes.len(), tables, nodes, starts: vec![vec![1; sizes.len()]] }
}

/// Counters of 32, 32 and 5 states whose merged combination has 5,120 states,
/// and marks do not decide.
pub fn merged_too_large() -> Instrument {
    counters(&[32, 32, 5])
}

/// The same tables; the root is also true where the first counter is in state
/// 0, as it is in the starts. Marks decide.
pub fn merged_too_large_but_marked() -> Instrument {
    let mut instrument = merged_too_large();
    instrument.nodes.push(Node::Or(instrument.root(), 1));
    instrument.starts = vec![vec![0, 3, 4], vec![0, 31, 0]];
    instrument
}

/// Four counters of 64 states; the root looks one step ahead only. The first has
/// three classes: state 0, state 63 and the rest. The last has two, by its signal,
/// the others one: nobody reads theirs.
pub fn full_too_large_merged_small() -> Instrument {
    let mut instrument = counters(&[64, 64, 64, 64]);
    instrument.nodes = vec![Node::Signal(0), Node::Ex(0), Node::Signal(3), Node::Or(1, 2)];
    instrument.starts = vec![vec![63, 1, 2, 3], vec![0, 1, 2, 3]];
    instrument
}

/// A component of 64 states and four inputs in which every successor set takes
/// ten bytes: it has state 63.
fn longest_table(inputs: Vec<usize>, outputs: Vec<usize>) -> Table {
    let mut table = Table { inputs, outputs, levels: vec![], sets: WrittenSets::new(vec![]) };
    for s in 0..limits::STATES {
        let last = table.outputs.len() - 1;
        // The last output is always high: eight outputs then take two bytes.
        table.levels.push((0..=last).map(|j| j == last || (s + j) % 3 == 0).collect());
        let set = |assignment: usize| vec![(s + s * assignment) % 63, 63];
        let sets = (0..table.assignments()).map(set).collect();
        table.sets.as_written_mut().push(sets);
    }
    table
}

/// A good file of the greatest length.
pub fn longest() -> Instrument {
    let tables = vec![
        longest_table(vec![8, 9, 10, 11], vec![0, 1, 2, 3, 4, 5, 6, 7]),
        longest_table(vec![0, 1, 2, 3], vec![8, 9]),
        longest_table(vec![0, 1, 8, 11], vec![10]),
        longest_table(vec![2, 4, 9, 10], vec![11]),
    ];
    let mut nodes = vec![Node::Signal(0)];
    for k in 1..limits::NODES {
        nodes.push(Node::Eu(k / 2, k - 1));
    }
    let start = |i: usize| vec![i % 64, (i * 5) % 64, (i * 7) % 64, (63 * i) % 64];
    let starts = (0..limits::STARTS).map(start).collect();
    Instrument { signals: limits::SIGNALS, tables, nodes, starts }
}
