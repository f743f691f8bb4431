//! Crates relations and partitions: the relation at the root and the nodes under it, and the
//! classes at the root.

use super::classes::{both, everything, ex, fixed, names, same_level, Relation};
use super::instrument::{ComparedWords, Instrument, Node, Table};
use super::marks::Mark;
use super::words::MOST_STATES;

/// One node, from the marks and the relations of earlier ones.
fn relation(
    table: &Table,
    words: &ComparedWords,
    node: Node,
    mark: Mark,
    marks: &[Mark],
    rows: &[Relation],
) -> Relation {
    match node {
        Node::True => everything(table),
        Node::Signal(signal) => match table.driving(signal) {
            Some(high) => same_level(table, high),
            None => everything(table),
        },
        Node::Not(x) => rows[x],
        Node::Or(x, y) => both(&rows[x], &rows[y]),
        Node::Ex(x) => ex(table, words, &rows[x], mark, marks[x].fail),
        Node::Eg(x) => fixed(table, words, &rows[x], mark),
        Node::Eu(x, y) => fixed(table, words, &both(&rows[x], &rows[y]), mark),
    }
}

/// The class names of a component: those of the relation at the root, the last node.
fn component_classes(
    table: &Table,
    nodes: &[Node],
    needed: u32,
    read: u32,
    marks: &[Mark],
) -> Vec<u8> {
    let words = table.compared_words(read);
    let mut rows: Vec<Relation> = Vec::with_capacity(nodes.len());
    for (k, &node) in nodes.iter().enumerate() {
        let row = match needed >> k & 1 {
            1 => relation(table, &words, node, marks[k], marks, &rows),
            _ => [0; MOST_STATES],
        };
        rows.push(row);
    }
    names(table, rows.last().expect("a root"))
}

/// The class names of all components, from their marks.
pub fn all_classes(instrument: &Instrument, marks: &[Vec<Mark>]) -> Vec<Vec<u8>> {
    let needed = instrument.under_root();
    let read = instrument.read_signals();
    let classes = |(table, marks): (&Table, &Vec<Mark>)| {
        component_classes(table, &instrument.nodes, needed, read, marks)
    };
    instrument.tables.iter().zip(marks).map(classes).collect()
}
