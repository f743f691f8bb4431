//! Random tables, with duplicated states so that merging is real.

use super::shapes::Shape;
use crate::instrument::{Table, WrittenSets};
use crate::prng::Prng;

/// Up to `shape.inputs` signals that the component does not drive, ascending.
pub fn listed_inputs(prng: &mut Prng, shape: &Shape, outputs: &[usize]) -> Vec<usize> {
    let mut foreign: Vec<usize> = (0..shape.signals).filter(|s| !outputs.contains(s)).collect();
    let wanted = if prng.percent(15) { 0 } else { prng.between(1, shape.inputs) };
    while foreign.len() > wanted {
        let position = prng.below(foreign.len());
        foreign.remove(position);
    }
    foreign
}

/// A table with random levels and successor sets, mostly of one or two members.
/// Some tables are like chains: most states go on to the next one, and levels
/// seldom change on the way.
pub fn random_table(
    prng: &mut Prng,
    states: usize,
    inputs: Vec<usize>,
    outputs: Vec<usize>,
) -> Table {
    let like_chain = prng.percent(40);
    let mut table = Table { inputs, outputs, levels: vec![], sets: WrittenSets::new(vec![]) };
    let mut levels: Vec<bool> = table.outputs.iter().map(|_| prng.percent(50)).collect();
    for s in 0..states {
        for level in levels.iter_mut() {
            *level ^= prng.percent(if like_chain { 25 } else { 50 });
        }
        table.levels.push(levels.clone());
        let next = (s + 1).min(states - 1);
        let mut draw_set = || {
            if like_chain && prng.percent(75) {
                vec![next]
            } else {
                random_set(prng, states)
            }
        };
        let mut sets: Vec<Vec<usize>> = (0..table.assignments()).map(|_| draw_set()).collect();
        // Some states do the same on every assignment.
        if prng.percent(30) {
            sets = vec![sets[0].clone(); sets.len()];
        }
        table.sets.as_written_mut().push(sets);
    }
    table
}

/// A random set of states that is not empty, ascending.
fn random_set(prng: &mut Prng, states: usize) -> Vec<usize> {
    let mut members = vec![false; states];
    members[prng.below(states)] = true;
    while prng.percent(35) {
        members[prng.below(states)] = true;
    }
    (0..states).filter(|&t| members[t]).collect()
}

/// A table with the given number of states in which further states repeat those
/// of the first: same levels, and successors among the repeats of the successors.
pub fn with_duplicates(prng: &mut Prng, table: &Table, states: usize) -> Table {
    let mut origin: Vec<usize> = (0..table.states()).collect();
    while origin.len() < states {
        let position = prng.below(origin.len() + 1);
        let repeated = prng.below(table.states());
        origin.insert(position, repeated);
    }
    let mut duplicated = table.clone();
    duplicated.levels = origin.iter().map(|&s| table.levels[s].clone()).collect();
    let mut sets: Vec<Vec<Vec<usize>>> = Vec::new();
    for &s in &origin {
        let of_state = table.sets.as_written()[s].iter();
        sets.push(of_state.map(|set| repeats_of(prng, &origin, set)).collect());
    }
    duplicated.sets = WrittenSets::new(sets);
    duplicated
}

/// For each member of the set one or more of its repeats, ascending.
fn repeats_of(prng: &mut Prng, origin: &[usize], set: &[usize]) -> Vec<usize> {
    let mut members = vec![false; origin.len()];
    for member in set {
        let repeats: Vec<usize> = (0..origin.len()).filter(|&t| origin[t] == *member).collect();
        members[*prng.one_of(&repeats)] = true;
        while prng.percent(25) {
            members[*prng.one_of(&repeats)] = true;
        }
    }
    (0..origin.len()).filter(|&t| members[t]).collect()
}

/// Replaces about `percentage` of a hundred successor sets by ones that hold half
/// of the states.
pub fn make_dense(prng: &mut Prng, table: &mut Table, percentage: usize) {
    let states = table.states();
    for set in table.sets.as_written_mut().iter_mut().flatten() {
        if prng.percent(percentage) {
            let surely = prng.below(states);
            *set = (0..states).filter(|&t| t == surely || prng.percent(50)).collect();
        }
    }
}

/// Replaces one successor set by a random one.
pub fn change_one_set(prng: &mut Prng, table: &mut Table) {
    let state = prng.below(table.states());
    let assignment = prng.below(table.assignments());
    let set = random_set(prng, table.states());
    table.sets.as_written_mut()[state][assignment] = set;
}
