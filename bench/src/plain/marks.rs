//! Crates mark_rules and marks: PASS and FAIL of the components' states, node by node, from each table alone.

use super::instrument::{Instrument, Node, Table};
use super::words::StateSet;

/// The marks of a component at a node, as sets of states.
#[derive(Clone, Copy)]
pub struct Mark {
    pub pass: StateSet,
    pub fail: StateSet,
}

/// Whether a state's successor sets, one for each assignment, meet a set as they have to.
type Meeting = fn(&[StateSet], StateSet) -> bool;

/// On every assignment.
fn always(row: &[StateSet], set: StateSet) -> bool {
    row.iter().all(|w| w & set != 0)
}

/// On some assignment.
fn sometimes(row: &[StateSet], set: StateSet) -> bool {
    row.iter().any(|w| w & set != 0)
}

/// The states that have a successor in the set.
#[inline(always)]
fn preimage(table: &Table, set: StateSet, meets: Meeting) -> StateSet {
    let mut found = 0;
    for (x, row) in table.nexts.chunks_exact(1 << table.inputs.len()).enumerate() {
        found |= StateSet::from(meets(row, set)) << x;
    }
    found
}

/// The largest set inside `keep` whose members have a successor in it.
#[inline(always)]
fn largest(table: &Table, keep: StateSet, meets: Meeting) -> StateSet {
    let mut current = keep;
    loop {
        let kept = current & preimage(table, current, meets);
        if kept == current {
            return current;
        }
        current = kept;
    }
}

/// The least set that holds the goal and each state of `through` that has a successor in it.
#[inline(always)]
fn least(table: &Table, through: StateSet, goal: StateSet, meets: Meeting) -> StateSet {
    let mut current = goal;
    loop {
        let grown = current | through & preimage(table, current, meets);
        if grown == current {
            return current;
        }
        current = grown;
    }
}

/// One node, from the marks of earlier ones.
fn mark(table: &Table, node: Node, marks: &[Mark]) -> Mark {
    let all = table.all();
    match node {
        Node::True => Mark { pass: all, fail: 0 },
        Node::Signal(signal) => match table.driving(signal) {
            Some(high) => Mark { pass: high, fail: all & !high },
            None => Mark { pass: 0, fail: 0 },
        },
        Node::Not(x) => Mark { pass: marks[x].fail, fail: marks[x].pass },
        Node::Or(x, y) => {
            Mark { pass: marks[x].pass | marks[y].pass, fail: marks[x].fail & marks[y].fail }
        }
        Node::Ex(x) => Mark {
            pass: preimage(table, marks[x].pass, always),
            fail: all & !preimage(table, all & !marks[x].fail, sometimes),
        },
        Node::Eg(x) => Mark {
            pass: largest(table, marks[x].pass, always),
            fail: all & !largest(table, all & !marks[x].fail, sometimes),
        },
        Node::Eu(x, y) => Mark {
            pass: least(table, marks[x].pass, marks[y].pass, always),
            fail: all & !least(table, all & !marks[x].fail, all & !marks[y].fail, sometimes),
        },
    }
}

/// The marks of a component at all nodes.
fn component_marks(table: &Table, nodes: &[Node]) -> Vec<Mark> {
    let mut marks = Vec::with_capacity(nodes.len());
    for &node in nodes {
        marks.push(mark(table, node, &marks));
    }
    marks
}

/// The marks of all components.
pub fn all_marks(instrument: &Instrument) -> Vec<Vec<Mark>> {
    instrument.tables.iter().map(|table| component_marks(table, &instrument.nodes)).collect()
}
