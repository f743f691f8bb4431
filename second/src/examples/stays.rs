//! Instruments with empty successor sets. Document 02, 2/14.

use crate::instrument::{Instrument, Node, Table, WrittenSets};
use crate::limits;
use crate::stays::Stay;

/// The chain with an empty third set; the formula is EX p.
pub const CHAIN_EX: [u8; 19] = [1, 1, 3, 0, 1, 0, 1, 1, 0, 2, 4, 0, 2, 1, 0, 4, 0, 1, 0];

/// The same with EG p.
pub const CHAIN_EG: [u8; 19] = [1, 1, 3, 0, 1, 0, 1, 1, 0, 2, 4, 0, 2, 1, 0, 5, 0, 1, 0];

/// A pair whose first component has empty sets in state 0 on assignment 0 and in
/// state 1 on assignment 1; its other two sets are spelled-out stays.
pub const PAIR: [u8; 29] =
    [2, 2, 2, 1, 1, 1, 0, 1, 0, 0, 1, 2, 0, 2, 0, 1, 1, 1, 0, 3, 2, 2, 1, 0, 5, 0, 1, 0, 0];

/// Each state goes to the next and the last one stays, which drives the signal.
pub fn chain_to_last(states: usize, stay: Stay) -> Instrument {
    let last = states - 1;
    let set = |s: usize| if s == last { stay.set(s) } else { vec![s + 1] };
    let table = Table {
        inputs: vec![],
        outputs: vec![0],
        levels: (0..states).map(|s| vec![s == last]).collect(),
        sets: WrittenSets::new((0..states).map(|s| vec![set(s)]).collect()),
    };
    // The signal at last for ever, one step ahead, and reached.
    let nodes = vec![
        Node::Signal(0),
        Node::Eg(0),
        Node::Ex(0),
        Node::True,
        Node::Eu(3, 1),
        Node::Not(0),
        Node::Eg(5),
        Node::Or(2, 6),
    ];
    Instrument { signals: 1, tables: vec![table], nodes, starts: vec![vec![last], vec![0]] }
}

/// A component of so many states and inputs all of whose sets are empty. It drives
/// the signal in every second state.
pub fn only_empty(states: usize, inputs: usize) -> Instrument {
    let table = still_table(states, (1..=inputs).collect(), 0);
    let nodes = vec![Node::Signal(0), Node::Eg(0), Node::Ex(0), Node::Eu(1, 2)];
    let starts = vec![vec![states - 1], vec![0]];
    Instrument { signals: inputs + 1, tables: vec![table], nodes, starts }
}

/// Four such components, each of which reads the signals of the others.
pub fn four_only_empty() -> Instrument {
    let others = |c: usize| (0..4).filter(|&other| other != c).collect();
    let tables = [3, 2, 4, 1].iter().enumerate().map(|(c, &s)| still_table(s, others(c), c));
    let nodes = vec![
        Node::Signal(0),
        Node::Signal(1),
        Node::Signal(2),
        Node::Signal(3),
        Node::Or(0, 1),
        Node::Eu(2, 4),
        Node::Eg(5),
        Node::Ex(3),
        Node::Or(6, 7),
    ];
    let starts = vec![vec![0, 0, 0, 0], vec![2, 1, 3, 0]];
    Instrument { signals: 4, tables: tables.collect(), nodes, starts }
}

fn still_table(states: usize, inputs: Vec<usize>, signal: usize) -> Table {
    let sets = vec![vec![vec![]; 1 << inputs.len()]; states];
    Table {
        inputs,
        outputs: vec![signal],
        levels: (0..states).map(|s| vec![s % 2 == 1]).collect(),
        sets: WrittenSets::new(sets),
    }
}

/// A ring of so many states that goes on to the next one, but stays in one state on
/// one assignment of its external inputs. It drives the signal in that state.
pub fn one_stay(
    states: usize,
    inputs: usize,
    state: usize,
    assignment: usize,
    stay: Stay,
) -> Instrument {
    let next = |s: usize| vec![(s + 1) % states];
    let mut sets: Vec<Vec<Vec<usize>>> = (0..states).map(|s| vec![next(s); 1 << inputs]).collect();
    sets[state][assignment] = stay.set(state);
    let ring = Table {
        inputs: (1..=inputs).collect(),
        outputs: vec![0],
        levels: (0..states).map(|s| vec![s == state]).collect(),
        sets: WrittenSets::new(sets),
    };
    let nodes = vec![Node::Signal(0), Node::Eg(0), Node::Ex(0), Node::Ex(1), Node::Or(2, 3)];
    let starts = vec![vec![state], vec![(state + states - 1) % states]];
    Instrument { signals: inputs + 1, tables: vec![ring], nodes, starts }
}

/// Output words of 0 beside empty sets: states 0 and 1 drive neither signal, states
/// 2 and 3 both.
pub fn zero_words() -> Instrument {
    let table = Table {
        inputs: vec![2],
        outputs: vec![0, 1],
        levels: (0..4).map(|s| vec![s > 1; 2]).collect(),
        sets: WrittenSets::new(vec![vec![vec![]; 2]; 4]),
    };
    let nodes = vec![Node::Signal(0), Node::Signal(1), Node::Or(0, 1), Node::Eg(2)];
    Instrument { signals: 3, tables: vec![table], nodes, starts: vec![vec![2], vec![3]] }
}

/// As many sets as there can be, all of them empty.
pub fn most_empty() -> Instrument {
    let mut instrument = super::longest();
    for table in &mut instrument.tables {
        let sets = vec![vec![vec![]; table.assignments()]; limits::STATES];
        table.sets = WrittenSets::new(sets);
    }
    instrument
}
