//! Four components of 32 or 64 states that merge to 4,096, with 8 external signals that two
//! components read.

use super::random::external;
use super::Input;
use second::instrument::{Instrument, Node, Table, WrittenSets};
use second::prng::Prng;

/// States of so many classes: on the last assignment a chain of classes, which keeps states
/// apart, on the others all states. It drives its signal at the end, unless it has one class.
fn table(c: usize, states: usize, inputs: Vec<usize>, classes: usize) -> Table {
    let full: Vec<usize> = (0..states).collect();
    let class = |x: usize| x % classes;
    let row = |x: usize| {
        let next = (class(x) + 1).min(classes - 1);
        let mut sets = vec![full.clone(); 16];
        sets[15].retain(|&t| class(t) == next);
        sets
    };
    let outputs = if classes > 1 { vec![c] } else { vec![] };
    let level = |x: usize| outputs.iter().map(|_| class(x) == classes - 1).collect();
    Table {
        inputs,
        levels: (0..states).map(level).collect(),
        sets: WrittenSets::new((0..states).map(row).collect()),
        outputs,
    }
}

/// Any end reached through each component's, or-ed so that all stand under the root: EX of not.
fn nodes(signals: Vec<usize>) -> Vec<Node> {
    let count = signals.len();
    let mut nodes: Vec<Node> = signals.into_iter().map(Node::Signal).collect();
    let mut any = 0;
    for k in 1..count {
        nodes.push(Node::Or(any, k));
        any = nodes.len() - 1;
    }
    nodes.push(Node::Not(any));
    let mut last = any;
    while nodes.len() < 22 {
        nodes.push(Node::Eu(nodes.len() % count, any));
        nodes.push(Node::Or(last, nodes.len() - 1));
        last = nodes.len() - 1;
    }
    nodes.extend([Node::Not(last), Node::Ex(22)]);
    nodes
}

pub fn inputs() -> Vec<Input> {
    let mut inputs = Vec::new();
    let of_32 = [[1, 32, 32, 4], [32, 32, 4, 1], [8, 8, 8, 8]].map(|classes| (32, classes));
    let of_64 = [[1, 64, 64, 1], [64, 64, 1, 1], [8, 8, 8, 8]].map(|classes| (64, classes));
    for (states, classes) in of_32.into_iter().chain(of_64) {
        let mut prng = Prng::new(9);
        let lists = external(0, 8).into_iter().enumerate();
        let tables = lists.map(|(c, list)| table(c, states, list, classes[c])).collect();
        let driven = (0..4).filter(|&c| classes[c] > 1).collect();
        let starts = (0..64).map(|_| (0..4).map(|_| prng.below(states)).collect()).collect();
        let instrument = Instrument { signals: 12, tables, nodes: nodes(driven), starts };
        let words = classes.map(|count| count.to_string()).join(" x ");
        let from = if states == 64 { "4 x 64 " } else { "" };
        let name = format!("{from}merged to {words}, full, external: 8 by two");
        inputs.push(Input::new(name, &instrument));
    }
    inputs
}
