//! A chain of 4,096 states as a combination of counters: in order, in reverse and shuffled.

use super::formulas::{nested, reaching};
use super::Input;
use second::instrument::{Instrument, Node, Table, WrittenSets};
use second::prng::Prng;

/// The counters' states, with the word for them in the names of inputs: three counters, and two
/// of 64 states beside one that has a single state.
const SIZES: [(&str, [usize; 3]); 2] = [("chain", [32, 32, 4]), ("chain 64 x 64", [64, 64, 1])];

/// Counter c counts on where all lower counters are at their ends, and stays where all are. It
/// drives signal c at its end and reads the others'. `place[c][v]` is the state where it has
/// counted to v.
fn counter(c: usize, place: &[Vec<usize>; 3]) -> Table {
    let states = place[c].len();
    let inputs: Vec<usize> = (0..3).filter(|&other| other != c).collect();
    let mut levels = vec![vec![]; states];
    let mut successors = vec![vec![]; states];
    for v in 0..states {
        let end = v == states - 1;
        let next = |assignment: usize| {
            let at_end = |j: usize| assignment >> j & 1 == 1;
            let lower = (0..2).filter(|&j| inputs[j] < c).all(at_end);
            let over = end && (0..2).all(at_end);
            let value = if lower && !over { (v + 1) % states } else { v };
            vec![place[c][value]]
        };
        levels[place[c][v]] = vec![end];
        successors[place[c][v]] = (0..4).map(next).collect();
    }
    Table { inputs, outputs: vec![c], levels, sets: WrittenSets::new(successors) }
}

/// The three counters with a formula.
fn chain(place: [Vec<usize>; 3], nodes: Vec<Node>) -> Instrument {
    let tables = (0..3).map(|c| counter(c, &place)).collect();
    Instrument { signals: 3, tables, nodes, starts: vec![] }
}

/// Nodes that end in "all three counters are at their ends", and formulas over it.
fn at_the_end(over: Vec<Node>) -> Vec<Node> {
    let mut nodes: Vec<Node> = (0..3).map(Node::Signal).collect();
    nodes.extend((0..3).map(Node::Not));
    nodes.extend([Node::Or(3, 4), Node::Or(5, 6), Node::Not(7)]);
    let end = nodes.len() - 1;
    for node in over.iter().skip(1) {
        let up = |k: usize| k + end;
        nodes.push(match *node {
            Node::Not(x) => Node::Not(up(x)),
            Node::Or(x, y) => Node::Or(up(x), up(y)),
            Node::Ex(x) => Node::Ex(up(x)),
            Node::Eg(x) => Node::Eg(up(x)),
            Node::Eu(x, y) => Node::Eu(up(x), up(y)),
            other => other,
        });
    }
    nodes
}

fn shuffled(prng: &mut Prng, count: usize) -> Vec<usize> {
    let mut order: Vec<usize> = (0..count).collect();
    for last in (1..count).rev() {
        order.swap(last, prng.below(last + 1));
    }
    order
}

pub fn inputs() -> Vec<Input> {
    let mut inputs = Vec::new();
    for (counters, sizes) in SIZES {
        let mut prng = Prng::new(40);
        let forward = sizes.map(|size| (0..size).collect::<Vec<_>>());
        let backward = sizes.map(|size| (0..size).rev().collect::<Vec<_>>());
        let mixed = sizes.map(|size| shuffled(&mut prng, size));
        for (word, place) in [("in order", forward), ("in reverse", backward), ("shuffled", mixed)]
        {
            let few = chain(place.clone(), at_the_end(reaching(0)));
            inputs.push(Input::new(format!("{counters} {word}, EU and EG at its end"), &few));
            let nest = chain(place, nested(&[0, 1, 2], 24));
            inputs.push(Input::new(format!("{counters} {word}, 24 nodes nested"), &nest));
        }
    }
    inputs
}
