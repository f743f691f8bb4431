//! Smaller instruments that still show a violation.

use crate::fields::write;
use crate::instrument::{Instrument, Node};
use crate::reader::read;

/// The smallest instrument found, by taking away one thing at a time for as long
/// as `shows` is true of what is left.
pub fn reduce(instrument: &Instrument, shows: &dyn Fn(&Instrument) -> bool) -> Instrument {
    let mut smallest = instrument.clone();
    while let Some(smaller) = candidates(&smallest).into_iter().find(|smaller| shows(smaller)) {
        smallest = smaller;
    }
    smallest
}

/// Good instruments with one thing less.
fn candidates(instrument: &Instrument) -> Vec<Instrument> {
    let mut list = Vec::new();
    for c in 0..instrument.tables.len() {
        list.push(without_component(instrument, c));
        for s in 0..instrument.tables[c].states() {
            list.push(without_state(instrument, c, s));
        }
        for j in 0..instrument.tables[c].inputs.len() {
            list.push(without_input(instrument, c, j));
        }
        for j in 0..instrument.tables[c].outputs.len() {
            list.push(without_output(instrument, c, j));
        }
    }
    for signal in 0..instrument.signals {
        list.extend(without_signal(instrument, signal));
    }
    for k in 0..instrument.nodes.len() {
        list.extend(without_node(instrument, k));
        if instrument.nodes[k] != Node::True {
            let mut smaller = instrument.clone();
            smaller.nodes[k] = Node::True;
            list.push(smaller);
        }
    }
    for position in 0..instrument.starts.len() {
        let mut smaller = instrument.clone();
        smaller.starts.remove(position);
        list.push(smaller);
    }
    list.extend(without_one_successor(instrument));
    list.retain(is_good);
    list
}

fn is_good(instrument: &Instrument) -> bool {
    read(&write(instrument)).is_ok_and(|accepted| accepted.instrument == *instrument)
}

fn without_component(instrument: &Instrument, c: usize) -> Instrument {
    let mut smaller = instrument.clone();
    smaller.tables.remove(c);
    for start in smaller.starts.iter_mut() {
        start.remove(c);
    }
    smaller
}

/// Steps to the state are left out; so are starts in it.
fn without_state(instrument: &Instrument, c: usize, state: usize) -> Instrument {
    let renumbered = |s: usize| if s > state { s - 1 } else { s };
    let mut smaller = instrument.clone();
    let table = &mut smaller.tables[c];
    table.levels.remove(state);
    table.sets.as_written_mut().remove(state);
    for set in table.sets.as_written_mut().iter_mut().flatten() {
        set.retain(|&t| t != state);
        for t in set.iter_mut() {
            *t = renumbered(*t);
        }
    }
    smaller.starts.retain(|start| start[c] != state);
    for start in smaller.starts.iter_mut() {
        start[c] = renumbered(start[c]);
    }
    smaller
}

/// The steps where the input is low are kept.
fn without_input(instrument: &Instrument, c: usize, j: usize) -> Instrument {
    let mut smaller = instrument.clone();
    smaller.tables[c].remove_input(j);
    smaller
}

fn without_output(instrument: &Instrument, c: usize, j: usize) -> Instrument {
    let mut smaller = instrument.clone();
    smaller.tables[c].remove_output(j);
    smaller
}

/// Without a signal that no table lists.
fn without_signal(instrument: &Instrument, signal: usize) -> Option<Instrument> {
    let mut smaller = instrument.clone();
    smaller.signals -= 1;
    let mut lists: Vec<&mut usize> = Vec::new();
    for table in smaller.tables.iter_mut() {
        lists.extend(table.inputs.iter_mut().chain(table.outputs.iter_mut()));
    }
    for node in smaller.nodes.iter_mut() {
        if let Node::Signal(named) = node {
            lists.push(named);
        }
    }
    for listed in lists {
        match (*listed).cmp(&signal) {
            std::cmp::Ordering::Less => {}
            std::cmp::Ordering::Equal => return None,
            std::cmp::Ordering::Greater => *listed -= 1,
        }
    }
    Some(smaller)
}

/// Without node k, each of its operands taking its place; a node that is not an
/// operand is simply left out.
fn without_node(instrument: &Instrument, k: usize) -> Vec<Instrument> {
    let mut list = Vec::new();
    for operand in instrument.nodes[k].operands() {
        let renumbered = |a: usize| match a {
            a if a == k => operand,
            a if a > k => a - 1,
            a => a,
        };
        let mut smaller = instrument.clone();
        smaller.nodes.remove(k);
        for node in smaller.nodes[k..].iter_mut() {
            *node = with_operands(*node, &renumbered);
        }
        list.push(smaller);
    }
    let used = instrument.nodes.iter().any(|node| node.operands().contains(&k));
    if !used && instrument.nodes.len() > 1 {
        let mut smaller = instrument.clone();
        smaller.nodes.remove(k);
        for node in smaller.nodes[k..].iter_mut() {
            *node = with_operands(*node, &|a| if a > k { a - 1 } else { a });
        }
        list.push(smaller);
    }
    list
}

fn with_operands(node: Node, renumbered: &dyn Fn(usize) -> usize) -> Node {
    match node {
        Node::True | Node::Signal(_) => node,
        Node::Not(a) => Node::Not(renumbered(a)),
        Node::Or(a, b) => Node::Or(renumbered(a), renumbered(b)),
        Node::Ex(a) => Node::Ex(renumbered(a)),
        Node::Eg(a) => Node::Eg(renumbered(a)),
        Node::Eu(a, b) => Node::Eu(renumbered(a), renumbered(b)),
    }
}

fn without_one_successor(instrument: &Instrument) -> Vec<Instrument> {
    let mut list = Vec::new();
    for (c, table) in instrument.tables.iter().enumerate() {
        for s in 0..table.states() {
            for assignment in 0..table.assignments() {
                for position in 0..table.sets.as_written()[s][assignment].len() {
                    let mut smaller = instrument.clone();
                    let sets = smaller.tables[c].sets.as_written_mut();
                    sets[s][assignment].remove(position);
                    list.push(smaller);
                }
            }
        }
    }
    list
}
