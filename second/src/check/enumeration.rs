//! Largest and least sets and relations, on tiny tables, by going through all
//! sets or relations. Document 01: every other set of the kind described lies
//! inside the largest, or holds the least; any other relation that keeps the
//! node's rule relates only pairs that the largest relates.

use super::rules::{no_assignment_without, simple_marks_right, Rule};
use super::{Checked, Violation};
use crate::counts::Counts;
use crate::instrument::{Node, Table};
use crate::marks::Marks;
use crate::relation::Relation;
use crate::word::{bit, power};

/// The most states of a table whose sets of states are gone through.
const SET_STATES: usize = 6;
/// The most states of a table whose relations are gone through.
const RELATION_STATES: usize = 3;

pub fn check(checked: &Checked, counts: &mut Counts) -> Result<(), Violation> {
    for (c, table) in checked.instrument.tables.iter().enumerate() {
        for k in 0..checked.instrument.nodes.len() {
            if table.states() <= SET_STATES {
                check_pass(checked, c, k, counts)?;
            }
            check_simple_marks(checked, c, k, counts)?;
            check_relation(checked, c, k, counts)?;
        }
    }
    Ok(())
}

/// Every set of the given number of states.
fn all_sets(states: usize) -> impl Iterator<Item = Vec<bool>> {
    (0..power(states)).map(move |number| (0..states).map(|s| bit(number, s)).collect())
}

fn inside(set: &[bool], other: &[bool]) -> bool {
    (0..set.len()).all(|s| !set[s] || other[s])
}

/// PASS of EG is of its kind and every other such set lies inside it; PASS of
/// EU is of its kind and every other such set holds it.
fn check_pass(checked: &Checked, c: usize, k: usize, counts: &mut Counts) -> Result<(), Violation> {
    let table = &checked.instrument.tables[c];
    let marks = &checked.queries.bench.marks[c];
    let pass = &marks[k].pass;
    let extreme = match checked.instrument.nodes[k] {
        Node::Eg(a) => {
            let kind = |set: &[bool]| is_eg_set(table, &marks[a], set);
            kind(pass) && all_sets(table.states()).all(|set| !kind(&set) || inside(&set, pass))
        }
        Node::Eu(a, b) => {
            let kind = |set: &[bool]| is_eu_set(table, &marks[a], &marks[b], set);
            kind(pass) && all_sets(table.states()).all(|set| !kind(&set) || inside(pass, &set))
        }
        _ => return Ok(()),
    };
    if !extreme {
        return Err(format!("component {c} node {k}: PASS is not the largest or least set"));
    }
    counts.add("PASS sets by enumeration", 1);
    Ok(())
}

/// Inside PASS of the operand, on every assignment a successor in the set.
fn is_eg_set(table: &Table, operand: &Marks, set: &[bool]) -> bool {
    let stays = |s: usize| no_assignment_without(table, s, set);
    (0..set.len()).all(|s| !set[s] || (operand.pass[s] && stays(s)))
}

/// Holds PASS of the second, and each state in PASS of the first with, on every
/// assignment, a successor in the set.
fn is_eu_set(table: &Table, first: &Marks, second: &Marks, set: &[bool]) -> bool {
    let must_hold =
        |s: usize| second.pass[s] || (first.pass[s] && no_assignment_without(table, s, set));
    (0..set.len()).all(|s| set[s] || !must_hold(s))
}

/// The relation keeps the rule, whatever its size; on tiny tables every relation
/// that keeps the rule lies inside it.
fn check_relation(
    checked: &Checked,
    c: usize,
    k: usize,
    counts: &mut Counts,
) -> Result<(), Violation> {
    let marks = &checked.queries.bench.marks[c];
    let tables = &checked.instrument.tables;
    let rule = Rule {
        table: &tables[c],
        others: [&tables[..c], &tables[c + 1..]],
        node: checked.instrument.nodes[k],
        own: &marks[k],
        marks: &marks[..k],
        earlier: &checked.queries.bench.relations[c][..k],
    };
    let largest = &checked.queries.bench.relations[c][k];
    if !rule.kept_by(largest) {
        return Err(format!("component {c} node {k}: the relation does not keep the rule"));
    }
    counts.add("relations that keep the rule", 1);
    let states = largest.len();
    if states > RELATION_STATES {
        return Ok(());
    }
    for pairs in all_sets(states * states) {
        let relation: Relation = pairs.chunks(states).map(<[bool]>::to_vec).collect();
        if !inside(&pairs, &largest.concat()) && rule.kept_by(&relation) {
            return Err(format!(
                "component {c} node {k}: {relation:?} keeps the rule and is not inside"
            ));
        }
        counts.add("relations by enumeration", 1);
    }
    Ok(())
}

/// Marks of the kinds that need no search.
fn check_simple_marks(
    checked: &Checked,
    c: usize,
    k: usize,
    counts: &mut Counts,
) -> Result<(), Violation> {
    let marks = &checked.queries.bench.marks[c];
    let node = &checked.instrument.nodes[k];
    if !simple_marks_right(&checked.instrument.tables[c], node, &marks[..k], &marks[k]) {
        return Err(format!("component {c} node {k}: the marks are not those of its operands"));
    }
    counts.add("marks of simple kinds", 1);
    Ok(())
}
