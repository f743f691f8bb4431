//! An instrument as text: signals are named s0, s1, ..; states and nodes by number.

use crate::instrument::{Instrument, Node, Table};
use crate::word::bit;

pub fn to_text(instrument: &Instrument) -> String {
    let every_signal: Vec<usize> = (0..instrument.signals).collect();
    let mut text = line("signals", &signal_names(&every_signal));
    for table in &instrument.tables {
        text += "component\n";
        text += &table_text(table);
    }
    for (k, node) in instrument.nodes.iter().enumerate() {
        text += &format!("node {k} {}\n", node_text(node));
    }
    for start in &instrument.starts {
        text += &line("start", &numbers(start));
    }
    text
}

/// A word and the words after it.
fn line(first: &str, rest: &[String]) -> String {
    let mut words = vec![first.to_string()];
    words.extend_from_slice(rest);
    words.join(" ") + "\n"
}

fn signal_names(signals: &[usize]) -> Vec<String> {
    signals.iter().map(|signal| format!("s{signal}")).collect()
}

fn numbers(list: &[usize]) -> Vec<String> {
    list.iter().map(|number| number.to_string()).collect()
}

fn table_text(table: &Table) -> String {
    let mut text = line("  inputs", &signal_names(&table.inputs));
    text += &line("  outputs", &signal_names(&table.outputs));
    for state in 0..table.states() {
        let high = |signal: &&usize| table.drives_high(state, **signal);
        let driven: Vec<usize> = table.outputs.iter().filter(high).copied().collect();
        text += &line(&format!("  state {state} drives"), &signal_names(&driven));
        let sets = &table.sets.as_written()[state];
        if sets.iter().all(|set| *set == sets[0]) {
            text += &format!("    {}", set_text(&sets[0]));
        } else {
            for (assignment, set) in sets.iter().enumerate() {
                let digits = digits(assignment, table.inputs.len());
                text += &format!("    on {digits} {}", set_text(set));
            }
        }
    }
    text
}

/// A successor set as it is written in the file.
fn set_text(set: &[usize]) -> String {
    if set.is_empty() {
        line("stays", &[])
    } else {
        line("goes", &numbers(set))
    }
}

/// The levels of the listed inputs, in the order of the list.
fn digits(assignment: usize, inputs: usize) -> String {
    let digit = |j| if bit(assignment as u64, j) { '1' } else { '0' };
    (0..inputs).map(digit).collect()
}

fn node_text(node: &Node) -> String {
    match *node {
        Node::True => "true".to_string(),
        Node::Signal(signal) => format!("signal s{signal}"),
        Node::Not(a) => format!("not {a}"),
        Node::Or(a, b) => format!("or {a} {b}"),
        Node::Ex(a) => format!("EX {a}"),
        Node::Eg(a) => format!("EG {a}"),
        Node::Eu(a, b) => format!("EU {a} {b}"),
    }
}
