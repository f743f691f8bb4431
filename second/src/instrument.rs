//! Tables, formula nodes and starts. Document 01, "The instrument file".

use std::borrow::Cow;

use crate::reading::Reading;
use crate::word::bit;

/// The successor sets of a table as its file writes them: for each state and each
/// assignment, the members in ascending order. A set may be empty, so no rule
/// looks in here; rules ask `Table::successors`.
#[derive(Clone, Debug, PartialEq, Eq)]
pub struct WrittenSets(Vec<Vec<Vec<usize>>>);

impl WrittenSets {
    pub fn new(sets: Vec<Vec<Vec<usize>>>) -> WrittenSets {
        WrittenSets(sets)
    }

    pub fn as_written(&self) -> &[Vec<Vec<usize>>] {
        &self.0
    }

    pub fn as_written_mut(&mut self) -> &mut Vec<Vec<Vec<usize>>> {
        &mut self.0
    }
}

/// A component's state table.
#[derive(Clone, Debug, PartialEq, Eq)]
pub struct Table {
    /// The listed inputs, as signal numbers.
    pub inputs: Vec<usize>,
    /// The listed outputs, as signal numbers.
    pub outputs: Vec<usize>,
    /// For each state, the level of each listed output.
    pub levels: Vec<Vec<bool>>,
    /// The successor sets of the file.
    pub sets: WrittenSets,
}

impl Table {
    /// The number of states.
    pub fn states(&self) -> usize {
        self.levels.len()
    }

    /// The number of assignments of the listed inputs.
    pub fn assignments(&self) -> usize {
        let mut count = 1;
        for _ in &self.inputs {
            count *= 2;
        }
        count
    }

    /// Whether the table drives the signal.
    pub fn drives(&self, signal: usize) -> bool {
        self.outputs.contains(&signal)
    }

    /// Whether the table drives the signal high in the state.
    pub fn drives_high(&self, state: usize, signal: usize) -> bool {
        (0..self.outputs.len()).any(|j| self.outputs[j] == signal && self.levels[state][j])
    }

    /// The assignment read when each signal has the given level: bit j is the
    /// level of the j-th listed input.
    pub fn assignment(&self, signal_levels: &[bool]) -> usize {
        let mut assignment = 0;
        let mut value = 1;
        for &signal in &self.inputs {
            if signal_levels[signal] {
                assignment += value;
            }
            value *= 2;
        }
        assignment
    }

    /// Only for the wrong reading `InputsReversed`: bit 0 is the last listed input.
    pub fn reversed_assignment(&self, signal_levels: &[bool]) -> usize {
        let mut assignment = 0;
        for &signal in &self.inputs {
            assignment = 2 * assignment + usize::from(signal_levels[signal]);
        }
        assignment
    }

    /// The successors of the state on the assignment, as every rule sees them: an
    /// empty set means the state itself. Document 02, 2/14.
    pub fn successors(
        &self,
        state: usize,
        assignment: usize,
        reading: Reading,
    ) -> Cow<'_, [usize]> {
        let written = &self.sets.0[state][assignment];
        if !written.is_empty() {
            return Cow::Borrowed(written);
        }
        let place = state * self.assignments() + assignment;
        let filled = match reading {
            Reading::EmptySetIsStateZero => 0,
            Reading::EmptySetIsPlace => place % self.states(),
            _ => state,
        };
        Cow::Owned(vec![filled])
    }

    /// For each state, its successors on any assignment: the component's own steps.
    pub fn own_steps(&self, reading: Reading) -> Vec<Vec<usize>> {
        let mut steps = Vec::new();
        for state in 0..self.states() {
            let on = |assignment| self.successors(state, assignment, reading);
            let reached = |t: &usize| (0..self.assignments()).any(|a| on(a).contains(t));
            steps.push((0..self.states()).filter(reached).collect());
        }
        steps
    }

    /// Leaves out the j-th input; the steps where it is low are kept.
    pub fn remove_input(&mut self, j: usize) {
        self.inputs.remove(j);
        for sets in self.sets.as_written_mut() {
            let mut position = 0;
            sets.retain(|_| {
                let low = !bit(position, j);
                position += 1;
                low
            });
        }
    }

    /// Leaves out the j-th output.
    pub fn remove_output(&mut self, j: usize) {
        self.outputs.remove(j);
        for levels in self.levels.iter_mut() {
            levels.remove(j);
        }
    }
}

/// A formula node; operands other than a signal are numbers of earlier nodes.
#[derive(Clone, Copy, Debug, PartialEq, Eq)]
pub enum Node {
    True,
    Signal(usize),
    Not(usize),
    Or(usize, usize),
    Ex(usize),
    Eg(usize),
    Eu(usize, usize),
}

impl Node {
    /// The kind's number in the file.
    pub fn kind(&self) -> u32 {
        match self {
            Node::True => 0,
            Node::Signal(_) => 1,
            Node::Not(_) => 2,
            Node::Or(_, _) => 3,
            Node::Ex(_) => 4,
            Node::Eg(_) => 5,
            Node::Eu(_, _) => 6,
        }
    }

    /// The operands that are nodes.
    pub fn operands(&self) -> Vec<usize> {
        match *self {
            Node::True | Node::Signal(_) => vec![],
            Node::Not(a) | Node::Ex(a) | Node::Eg(a) => vec![a],
            Node::Or(a, b) | Node::Eu(a, b) => vec![a, b],
        }
    }
}

/// What an accepted file holds.
#[derive(Clone, Debug, PartialEq, Eq)]
pub struct Instrument {
    /// The number of signals, W.
    pub signals: usize,
    pub tables: Vec<Table>,
    pub nodes: Vec<Node>,
    /// For each start, one state per component.
    pub starts: Vec<Vec<usize>>,
}

impl Instrument {
    /// The last node.
    pub fn root(&self) -> usize {
        self.nodes.len() - 1
    }

    /// Which nodes are the root or are reached from it through operands.
    pub fn under_root(&self) -> Vec<bool> {
        let mut under = vec![false; self.nodes.len()];
        under[self.root()] = true;
        // Operands are earlier nodes, so one pass from the root down is enough.
        for k in (0..self.nodes.len()).rev() {
            if under[k] {
                for operand in self.nodes[k].operands() {
                    under[operand] = true;
                }
            }
        }
        under
    }

    /// The signals that the formula names, whether or not under the root.
    pub fn named_signals(&self) -> Vec<usize> {
        let named = |signal: &usize| self.nodes.contains(&Node::Signal(*signal));
        (0..self.signals).filter(named).collect()
    }
}
