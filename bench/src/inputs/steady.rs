//! Chains that go on whatever is read: slow for marks and relations, a state more in each round.

use super::Input;
use second::instrument::{Instrument, Node, Table, WrittenSets};

/// What component c lists: the next one's signal, which is compared then, and three of the four
/// external signals 8 to 11.
fn inputs_of(c: usize) -> Vec<usize> {
    let mut inputs = vec![(c + 1) % 4];
    inputs.extend((8..12).filter(|&signal| signal != 8 + c));
    inputs
}

/// From state to state, upwards or downwards, and stays at the end, where it drives signal c.
fn chain(c: usize, states: usize, up: bool) -> Table {
    let place = |v: usize| if up { v } else { states - 1 - v };
    let mut levels = vec![vec![]; states];
    let mut successors = vec![vec![]; states];
    for v in 0..states {
        levels[place(v)] = vec![v == states - 1];
        successors[place(v)] = vec![vec![place((v + 1).min(states - 1))]; 16];
    }
    Table { inputs: inputs_of(c), outputs: vec![c], levels, sets: WrittenSets::new(successors) }
}

/// Four chains of these state counts, started at 0.
pub fn chains(sizes: [usize; 4], up: bool, nodes: Vec<Node>) -> Instrument {
    let tables = sizes.iter().enumerate().map(|(c, &states)| chain(c, states, up)).collect();
    Instrument { signals: 12, tables, nodes, starts: vec![vec![0; 4]] }
}

/// true and each component's end.
fn ends() -> Vec<Node> {
    let mut nodes = vec![Node::True];
    nodes.extend((0..4).map(Node::Signal));
    nodes
}

/// Marks of an end reached: true EU end, for each component's end in turn.
fn reached() -> Vec<Node> {
    let mut nodes = ends();
    nodes.extend((0..19).map(|k| Node::Eu(0, 1 + k % 4)));
    nodes
}

/// Marks of an end avoided: EG of not end.
pub fn avoided() -> Vec<Node> {
    let mut nodes = ends();
    nodes.extend((1..5).map(Node::Not));
    nodes.extend((0..15).map(|k| Node::Eg(5 + k % 4)));
    nodes
}

/// No marks, and one class more in each round: any end, own or foreign, reached through another's.
pub fn told_apart(count: usize) -> Vec<Node> {
    let mut nodes: Vec<Node> = (0..4).map(Node::Signal).collect();
    nodes.extend([Node::Or(0, 1), Node::Or(2, 3), Node::Or(4, 5)]);
    nodes.extend((0..count - nodes.len()).map(|k| Node::Eu(k % 4, 6)));
    nodes
}

/// The same where the root, an or of all, needs every node.
fn needed() -> Vec<Node> {
    let mut nodes = told_apart(8);
    while nodes.len() < 24 {
        let last = nodes.len() - 1;
        nodes.extend([Node::Eu(last / 2 % 4, 6), Node::Or(last, last + 1)]);
    }
    nodes
}

/// Nodes that no root needs: the root is true.
fn unneeded() -> Vec<Node> {
    let mut nodes = told_apart(23);
    nodes.push(Node::True);
    nodes
}

pub fn inputs() -> Vec<Input> {
    let mut inputs = Vec::new();
    let mut add = |name: String, sizes: [usize; 4], up: bool, nodes: Vec<Node>| {
        inputs.push(Input::new(name, &chains(sizes, up, nodes)));
    };
    for states in [8, 16, 32, 64] {
        let sizes = [states; 4];
        add(format!("chains 4 x {states}, marks of EU, up"), sizes, true, reached());
        add(format!("chains 4 x {states}, marks of EU, down"), sizes, false, reached());
        add(format!("chains 4 x {states}, marks of EG"), sizes, true, avoided());
    }
    for (states, count) in [(8, 24), (16, 24), (32, 8), (32, 16), (32, 24), (64, 24)] {
        let name = format!("chains 4 x {states}, relations of EU, {count} nodes");
        add(name, [states; 4], true, told_apart(count));
    }
    for states in [32, 64] {
        let name = format!("chains 4 x {states}, relations of EU, 24 nodes needed");
        add(name, [states; 4], true, needed());
    }
    for sizes in [[32, 32, 2, 2], [64, 16, 2, 2]] {
        let word = sizes.map(|states| states.to_string()).join(" x ");
        add(format!("chains {word}, 4,096 merged states"), sizes, true, told_apart(24));
    }
    for states in [32, 64] {
        let name = format!("chains 4 x {states}, root true, 23 nodes unneeded");
        add(name, [states; 4], true, unneeded());
    }
    inputs
}
