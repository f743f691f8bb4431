//! Formulas as node lists.

use second::instrument::Node;

/// The nodes named by `signals`, or true where there are none, then EG and EU nested over each
/// other up to so many nodes in all.
pub fn nested(signals: &[usize], count: usize) -> Vec<Node> {
    let mut nodes: Vec<Node> = match signals {
        [] => vec![Node::True],
        _ => signals.iter().map(|&signal| Node::Signal(signal)).collect(),
    };
    let base = nodes.len();
    while nodes.len() < count {
        let last = nodes.len() - 1;
        let earlier = nodes.len() % base;
        nodes.push(match nodes.len() % 6 {
            0 => Node::Or(last, earlier),
            1 => Node::Eg(last),
            2 => Node::Eu(earlier, last),
            3 => Node::Not(last),
            4 => Node::Ex(last),
            _ => Node::Eu(last, earlier),
        });
    }
    nodes
}

/// Reachability and invariance of one signal: true EU p, EG not p, EX p.
pub fn reaching(signal: usize) -> Vec<Node> {
    vec![
        Node::Signal(signal),
        Node::True,
        Node::Not(0),
        Node::Eu(1, 0),
        Node::Eg(2),
        Node::Ex(0),
        Node::Eu(2, 0),
    ]
}

/// EG not p, as often as 24 nodes allow.
pub fn only_eg(signal: usize) -> Vec<Node> {
    let mut nodes = vec![Node::Signal(signal), Node::Not(0)];
    nodes.resize(24, Node::Eg(1));
    nodes
}
