//! PASS and FAIL of a component. Document 01, "Marks".

use crate::instrument::{Node, Table};
use crate::paths::{some_path_reaches, some_path_stays};
use crate::reading::Reading;

/// The PASS and FAIL states of a component for one node.
#[derive(Clone, Debug, PartialEq, Eq)]
pub struct Marks {
    pub pass: Vec<bool>,
    pub fail: Vec<bool>,
}

/// The marks of a component for every node.
pub fn marks(table: &Table, nodes: &[Node], reading: Reading) -> Vec<Marks> {
    let mut marks: Vec<Marks> = Vec::new();
    for node in nodes {
        let of_node = mark_node(table, node, &marks, reading);
        marks.push(of_node);
    }
    marks
}

fn mark_node(table: &Table, node: &Node, marks: &[Marks], reading: Reading) -> Marks {
    let states = 0..table.states();
    let none = vec![false; table.states()];
    let path_kind = matches!(node, Node::Ex(_) | Node::Eg(_) | Node::Eu(_, _));
    if path_kind && reading == Reading::NothingMarked {
        return Marks { pass: none.clone(), fail: none };
    }
    match *node {
        Node::True => Marks { pass: vec![true; table.states()], fail: none },
        Node::Signal(signal) if table.drives(signal) => {
            let pass: Vec<bool> = states.map(|s| table.drives_high(s, signal)).collect();
            let fail = pass.iter().map(|high| !high).collect();
            Marks { pass, fail }
        }
        Node::Signal(_) => {
            let fail = vec![reading == Reading::ForeignSignalFails; table.states()];
            Marks { pass: none, fail }
        }
        Node::Not(a) => Marks { pass: marks[a].fail.clone(), fail: marks[a].pass.clone() },
        Node::Or(a, b) => or_marks(&marks[a], &marks[b], reading),
        Node::Ex(a) => Marks {
            pass: states.clone().map(|s| ex_pass(table, s, &marks[a].pass, reading)).collect(),
            fail: states.map(|s| only_successors_in(table, s, &marks[a].fail, reading)).collect(),
        },
        Node::Eg(a) => Marks {
            pass: eg_pass(table, &marks[a].pass, reading),
            fail: eg_fail(table, &marks[a].fail, reading),
        },
        Node::Eu(a, b) => Marks {
            pass: eu_pass(table, &marks[a].pass, &marks[b].pass, reading),
            fail: eu_fail(table, &marks[a].fail, &marks[b].fail, reading),
        },
    }
}

/// Union of PASS, intersection of FAIL.
fn or_marks(a: &Marks, b: &Marks, reading: Reading) -> Marks {
    let states = 0..a.pass.len();
    let pass = states.clone().map(|s| a.pass[s] || b.pass[s]).collect();
    let fail = if reading == Reading::OrFailFromOne {
        states.map(|s| a.fail[s] || b.fail[s]).collect()
    } else {
        states.map(|s| a.fail[s] && b.fail[s]).collect()
    };
    Marks { pass, fail }
}

/// Whether on every assignment the state has a successor in the set.
fn successor_on_every_assignment(table: &Table, s: usize, set: &[bool], reading: Reading) -> bool {
    (0..table.assignments()).all(|a| table.successors(s, a, reading).iter().any(|&t| set[t]))
}

fn successor_on_some_assignment(table: &Table, s: usize, set: &[bool], reading: Reading) -> bool {
    (0..table.assignments()).any(|a| table.successors(s, a, reading).iter().any(|&t| set[t]))
}

/// Whether on all assignments all successors are in the set.
fn only_successors_in(table: &Table, s: usize, set: &[bool], reading: Reading) -> bool {
    (0..table.assignments()).all(|a| table.successors(s, a, reading).iter().all(|&t| set[t]))
}

fn ex_pass(table: &Table, state: usize, operand_pass: &[bool], reading: Reading) -> bool {
    if reading == Reading::ExPassFromOneAssignment {
        return successor_on_some_assignment(table, state, operand_pass, reading);
    }
    successor_on_every_assignment(table, state, operand_pass, reading)
}

/// The largest set inside PASS of the operand that on every assignment has a
/// successor in the set: states are deleted until nothing changes.
fn eg_pass(table: &Table, operand_pass: &[bool], reading: Reading) -> Vec<bool> {
    let mut set = operand_pass.to_vec();
    loop {
        let mut changed = false;
        for s in 0..table.states() {
            let stays = if reading == Reading::EgPassFromOneAssignment {
                successor_on_some_assignment(table, s, &set, reading)
            } else {
                successor_on_every_assignment(table, s, &set, reading)
            };
            if set[s] && !stays {
                set[s] = false;
                changed = true;
            }
        }
        if !changed || reading == Reading::OneRound {
            return set;
        }
    }
}

/// Every path meets FAIL of the operand: no path stays outside it for ever.
fn eg_fail(table: &Table, operand_fail: &[bool], reading: Reading) -> Vec<bool> {
    let outside: Vec<bool> = operand_fail.iter().map(|fail| !fail).collect();
    let avoids = some_path_stays(&table.own_steps(reading), &outside, reading);
    avoids.iter().map(|avoids| !avoids).collect()
}

/// The least set holding PASS of the second, and each state in PASS of the first
/// with, on every assignment, a successor in the set: states are added until
/// nothing changes.
fn eu_pass(table: &Table, first: &[bool], second: &[bool], reading: Reading) -> Vec<bool> {
    let mut set = second.to_vec();
    if reading == Reading::EuWithoutStepZero {
        let reaches = |s| first[s] && successor_on_every_assignment(table, s, second, reading);
        set = (0..table.states()).map(reaches).collect();
    }
    loop {
        let mut changed = false;
        for s in 0..table.states() {
            if !set[s] && first[s] && successor_on_every_assignment(table, s, &set, reading) {
                set[s] = true;
                changed = true;
            }
        }
        if !changed || reading == Reading::OneRound {
            return set;
        }
    }
}

/// Every path stays in FAIL of the second, for ever or up to and including a
/// state in FAIL of the first. That is: no path reaches a state outside FAIL of
/// the second with only states outside FAIL of the first before it.
fn eu_fail(table: &Table, first: &[bool], second: &[bool], reading: Reading) -> Vec<bool> {
    let before: Vec<bool> = first.iter().map(|fail| !fail).collect();
    let goal: Vec<bool> = if reading == Reading::EuFailUpToBefore {
        (0..table.states()).map(|s| !second[s] && !first[s]).collect()
    } else {
        second.iter().map(|fail| !fail).collect()
    };
    let escapes = some_path_reaches(&table.own_steps(reading), &before, &goal, reading);
    escapes.iter().map(|escapes| !escapes).collect()
}
