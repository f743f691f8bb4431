//! Random instruments of four components for the short way, tables that merge, and the longest
//! file.

use super::formulas::nested;
use super::random::successors;
use super::Input;
use second::instrument::{Instrument, Node, Table, WrittenSets};
use second::prng::Prng;
use second::reading::Reading;

/// Component c drives signals 2c and 2c + 1 and reads one signal of each neighbour and two external
/// ones.
fn table(prng: &mut Prng, c: usize, states: usize, share: usize) -> Table {
    let mut inputs = vec![2 * ((c + 1) % 4), 2 * ((c + 3) % 4) + 1, 8 + c % 4, 8 + (c + 1) % 4];
    inputs.sort();
    let level = |prng: &mut Prng| (0..2).map(|_| prng.below(2) == 1).collect();
    let levels = (0..states).map(|_| level(prng)).collect();
    let row = |prng: &mut Prng| (0..16).map(|_| successors(prng, states, share)).collect();
    let successors = (0..states).map(|_| row(prng)).collect();
    Table { inputs, outputs: vec![2 * c, 2 * c + 1], levels, sets: WrittenSets::new(successors) }
}

fn four(prng: &mut Prng, states: usize, share: usize) -> Vec<Table> {
    (0..4).map(|c| table(prng, c, states, share)).collect()
}

/// Each state so many times over; a successor becomes one of its copies and each other one in three
/// cases of ten, so that copies are related.
fn cloned(prng: &mut Prng, table: &Table, times: usize) -> Table {
    let states = table.states();
    let copies = |prng: &mut Prng, set: &[usize]| {
        let mut copied = Vec::new();
        for &t in set {
            let one = prng.below(times);
            let chosen = |k: &usize| *k == one || prng.percent(30);
            copied.extend((0..times).filter(chosen).map(|k| t + states * k));
        }
        copied.sort();
        copied
    };
    let set = |x: usize, a: usize| table.successors(x % states, a, Reading::Document);
    let row = |x: usize| (0..table.assignments()).map(|a| copies(prng, &set(x, a))).collect();
    Table {
        inputs: table.inputs.clone(),
        outputs: table.outputs.clone(),
        levels: vec![table.levels.clone(); times].concat(),
        sets: WrittenSets::new((0..states * times).map(row).collect()),
    }
}

/// With 64 random starts and a formula of so many nodes.
fn started(prng: &mut Prng, tables: Vec<Table>, count: usize) -> Instrument {
    let start = |prng: &mut Prng| tables.iter().map(|table| prng.below(table.states())).collect();
    let starts = (0..64).map(|_| start(prng)).collect();
    Instrument { signals: 12, nodes: nested(&[0, 2, 4, 6], count), starts, tables }
}

/// Of the greatest length: 64 states, 16 assignments, full sets, 64 starts; the root is true.
fn longest() -> Instrument {
    let table = |c: usize| Table {
        inputs: vec![8, 9, 10, 11],
        outputs: vec![2 * c, 2 * c + 1],
        levels: vec![vec![true; 2]; 64],
        sets: WrittenSets::new(vec![vec![(0..64).collect(); 16]; 64]),
    };
    let tables = (0..4).map(table).collect();
    Instrument { signals: 12, tables, nodes: vec![Node::True], starts: vec![vec![63; 4]; 64] }
}

pub fn inputs() -> Vec<Input> {
    let mut inputs = Vec::new();
    for (word, share) in [("sparse", 0), ("dense", 16)] {
        for (states, nodes) in [(8, 24), (16, 24), (32, 6), (32, 12), (32, 24), (64, 24)] {
            let mut prng = Prng::new(states as u64);
            let tables = four(&mut prng, states, share);
            let name = format!("random 4 x {states}, {word}, {nodes} nodes");
            inputs.push(Input::new(name, &started(&mut prng, tables, nodes)));
        }
        for (states, times) in [(8, 4), (2, 16), (8, 8), (2, 32)] {
            let mut prng = Prng::new(5);
            let tables = four(&mut prng, states, share);
            let tables = tables.iter().map(|table| cloned(&mut prng, table, times)).collect();
            let name = format!("{times} clones of 4 x {states}, {word}");
            inputs.push(Input::new(name, &started(&mut prng, tables, 24)));
        }
    }
    inputs.push(Input::new("longest file, root true", &longest()));
    inputs
}
