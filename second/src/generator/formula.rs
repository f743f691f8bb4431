//! Random formulas.

use crate::instrument::Node;
use crate::prng::Prng;

/// Random nodes that name driven signals only. The first few are signals; then
/// operands are often the latest nodes, so that most nodes are under the root,
/// and some are shared.
pub fn formula(prng: &mut Prng, driven: &[usize], count: usize) -> Vec<Node> {
    let leaves = prng.between(1, 4).min(count);
    let mut nodes: Vec<Node> = (0..leaves).map(|_| leaf(prng, driven)).collect();
    while nodes.len() < count {
        if prng.percent(10) && nodes.len() + 1 < count {
            nodes.push(leaf(prng, driven));
        } else if prng.percent(25) && nodes.len() + 4 <= count {
            add_and(prng, &mut nodes);
        } else {
            let node = inner_node(prng, nodes.len());
            nodes.push(node);
        }
    }
    nodes
}

fn leaf(prng: &mut Prng, driven: &[usize]) -> Node {
    if driven.is_empty() || prng.percent(6) {
        Node::True
    } else {
        Node::Signal(*prng.one_of(driven))
    }
}

fn inner_node(prng: &mut Prng, k: usize) -> Node {
    let a = operand(prng, k);
    let b = operand(prng, k);
    match prng.below(16) {
        0..=3 => Node::Not(a),
        4..=5 => Node::Or(a, b),
        6..=9 => Node::Ex(a),
        10..=12 => Node::Eg(a),
        _ => Node::Eu(a, b),
    }
}

/// Four nodes: a and b, as not (not a or not b).
fn add_and(prng: &mut Prng, nodes: &mut Vec<Node>) {
    let k = nodes.len();
    let a = operand(prng, k);
    let b = prng.below(k);
    nodes.extend([Node::Not(a), Node::Not(b), Node::Or(k, k + 1), Node::Not(k + 2)]);
}

/// An earlier node than k, often one of the two latest.
fn operand(prng: &mut Prng, k: usize) -> usize {
    if prng.percent(55) {
        k - 1 - prng.below(k.min(2))
    } else {
        prng.below(k)
    }
}
