//! Nodes of the formula in words.

use second::instrument::Node;

/// The node with its operands by number, as `EU 2 3`.
pub fn node_text(node: &Node) -> String {
    match *node {
        Node::True => "true".to_string(),
        Node::Signal(signal) => format!("s{signal}"),
        Node::Not(a) => format!("not {a}"),
        Node::Or(a, b) => format!("{a} or {b}"),
        Node::Ex(a) => format!("EX {a}"),
        Node::Eg(a) => format!("EG {a}"),
        Node::Eu(a, b) => format!("EU {a} {b}"),
    }
}

/// The node with its operands written out, as `EG (s0 or s1)`.
pub fn formula_text(nodes: &[Node], k: usize) -> String {
    let part = |a: usize| match nodes[a] {
        Node::True | Node::Signal(_) => formula_text(nodes, a),
        _ => format!("({})", formula_text(nodes, a)),
    };
    match nodes[k] {
        Node::True | Node::Signal(_) => node_text(&nodes[k]),
        Node::Not(a) => format!("not {}", part(a)),
        Node::Or(a, b) => format!("{} or {}", part(a), part(b)),
        Node::Ex(a) => format!("EX {}", part(a)),
        Node::Eg(a) => format!("EG {}", part(a)),
        Node::Eu(a, b) => format!("{} EU {}", part(a), part(b)),
    }
}

/// The root written out, or nothing if that is long.
pub fn root_text(nodes: &[Node]) -> Option<String> {
    let sizes = nodes.iter().fold(Vec::new(), |mut sizes: Vec<usize>, node| {
        sizes.push(1 + node.operands().iter().map(|&a| sizes[a]).sum::<usize>());
        sizes
    });
    let root = nodes.len() - 1;
    (sizes[root] <= 16).then(|| formula_text(nodes, root))
}
