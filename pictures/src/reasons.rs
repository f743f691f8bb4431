//! Why states are in one class, and why classes are apart: document 01, "Classes",
//! and document 02, 3/14.

use second::instrument::Node;

use crate::component::{Class, Component, Mark};

/// What the members of a class have in common at the nodes under the root that
/// ask for something.
pub fn together(component: &Component, class: &Class) -> Vec<String> {
    let mut reasons = Vec::new();
    let mut marked = [(Mark::Pass, vec![]), (Mark::Fail, vec![]), (Mark::Neither, vec![])];
    for k in component.nodes_under_root() {
        let mark = component.marks[k][class.name];
        match component.nodes[k] {
            Node::Signal(signal) if component.table.drives(signal) => {
                let level = if mark == Mark::Pass { "high" } else { "low" };
                reasons.push(format!("s{signal} {level}"));
            }
            Node::Ex(_) | Node::Eg(_) | Node::Eu(_, _) => {
                let listed = marked.iter_mut().filter(|(kind, _)| *kind == mark);
                listed.for_each(|(_, nodes)| nodes.push(k));
            }
            _ => {}
        }
    }
    for (mark, nodes) in marked.iter().filter(|(_, nodes)| !nodes.is_empty()) {
        let nodes = listed(nodes);
        reasons.push(match mark {
            Mark::Pass => format!("PASS of {nodes}"),
            Mark::Fail => format!("FAIL of {nodes}"),
            Mark::Neither => format!("{}matching steps for {nodes}", equal_outputs(component)),
        });
    }
    if reasons.is_empty() {
        reasons.push("the formula asks for nothing here".to_string());
    }
    reasons
}

/// The outputs that have to be equal: those that another component reads.
fn equal_outputs(component: &Component) -> String {
    let outputs = component.table.outputs.iter().zip(&component.read);
    let read: Vec<String> =
        outputs.filter(|(_, &read)| read).map(|(signal, _)| format!("s{signal}")).collect();
    if read.is_empty() {
        return String::new();
    }
    format!("equal {}, ", read.join(" "))
}

/// `node 3`, or `nodes 3 4`.
fn listed(nodes: &[usize]) -> String {
    let numbers: Vec<String> = nodes.iter().map(usize::to_string).collect();
    let word = if nodes.len() == 1 { "node" } else { "nodes" };
    format!("{word} {}", numbers.join(" "))
}

/// Something that keeps two classes apart. States that are related at a node
/// have the same marks at it, so different marks are enough.
pub fn apart(component: &Component, one: &Class, other: &Class) -> String {
    let (a, b) = (one.name, other.name);
    let nodes = component.nodes_under_root();
    if let Some(&k) = nodes.iter().find(|&&k| component.marks[k][a] != component.marks[k][b]) {
        return match component.nodes[k] {
            Node::Signal(signal) => format!("s{signal}"),
            _ => format!("node {k}"),
        };
    }
    let levels = &component.table.levels;
    let differs = |j: &usize| component.read[*j] && levels[a][*j] != levels[b][*j];
    match (0..component.read.len()).find(differs) {
        Some(j) => format!("output s{}", component.table.outputs[j]),
        None => "steps".to_string(),
    }
}
