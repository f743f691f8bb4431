//! Crate instrument: what a good file holds.

use super::words::{below, StateSet, MOST_STATES};

/// A component's table: inputs and outputs are signal numbers, sets are words.
pub struct Table {
    pub states: usize,
    pub inputs: Vec<u32>,
    pub outputs: Vec<u32>,
    /// For each state, the word of its outputs.
    pub words: Vec<u32>,
    /// State by state and assignment by assignment, the successor set, filled if it was empty.
    pub nexts: Vec<StateSet>,
}

impl Table {
    /// The set of all states.
    pub fn all(&self) -> StateSet {
        below(self.states)
    }

    /// The successor sets of a state, one for each assignment.
    pub fn row(&self, state: usize) -> &[StateSet] {
        &self.nexts[state << self.inputs.len()..][..1 << self.inputs.len()]
    }

    /// The states that drive a signal high, if it is an output.
    pub fn driving(&self, signal: u32) -> Option<StateSet> {
        let j = self.outputs.iter().position(|&output| output == signal)?;
        let high = self.words.iter().enumerate();
        Some(high.fold(0, |set, (x, word)| set | StateSet::from(word >> j & 1) << x))
    }
}

/// For each state, the word of its outputs that are compared.
pub type ComparedWords = [u32; MOST_STATES];

impl Table {
    /// The output words cut down to the outputs that are in the set of signals.
    pub fn compared_words(&self, read: u32) -> ComparedWords {
        let outputs = self.outputs.iter().enumerate();
        let mask = outputs.fold(0, |mask, (j, &signal)| mask | (read >> signal & 1) << j);
        let mut compared = [0; MOST_STATES];
        for (own, word) in compared.iter_mut().zip(&self.words) {
            *own = word & mask;
        }
        compared
    }
}

/// A node of the formula.
#[derive(Clone, Copy)]
pub enum Node {
    True,
    Signal(u32),
    Not(usize),
    Or(usize, usize),
    Ex(usize),
    Eg(usize),
    Eu(usize, usize),
}

pub struct Instrument {
    pub tables: Vec<Table>,
    /// Bit w is 1 where a component drives signal w.
    pub driven: u32,
    pub nodes: Vec<Node>,
    /// For each start, the state of each component, 0 past the last.
    pub starts: Vec<[usize; 4]>,
}

impl Instrument {
    /// The components' state counts, and 1 past the last component.
    pub fn sizes(&self) -> [usize; 4] {
        let mut sizes = [1; 4];
        for (size, table) in sizes.iter_mut().zip(&self.tables) {
            *size = table.states;
        }
        sizes
    }

    pub fn combined_count(&self) -> usize {
        self.sizes().iter().product()
    }

    /// The signals that some component drives high where the components are in these states.
    pub fn high_signals(&self, states: [usize; 4]) -> u32 {
        let mut high = 0;
        for (table, &state) in self.tables.iter().zip(&states) {
            let word = table.words[state];
            for (j, &signal) in table.outputs.iter().enumerate() {
                high |= (word >> j & 1) << signal;
            }
        }
        high
    }

    /// The signals that some component lists as an input. None lists an output of its own, so for
    /// an output this is another component.
    pub fn read_signals(&self) -> u32 {
        let inputs = self.tables.iter().flat_map(|table| &table.inputs);
        inputs.fold(0, |set, signal| set | 1 << signal)
    }

    /// The root and the nodes under it: operands are earlier nodes, so one way down finds all.
    pub fn under_root(&self) -> u32 {
        let mut set = 1 << (self.nodes.len() - 1);
        for (k, &node) in self.nodes.iter().enumerate().rev() {
            if set >> k & 1 == 1 {
                set |= match node {
                    Node::True | Node::Signal(_) => 0,
                    Node::Not(x) | Node::Ex(x) | Node::Eg(x) => 1 << x,
                    Node::Or(x, y) | Node::Eu(x, y) => 1 << x | 1 << y,
                };
            }
        }
        set
    }
}
