//! Text to instrument: signals, then components, then nodes, then starts.

use super::lines::{lines, Line, Names, TextError};
use super::table::table;
use crate::instrument::{Instrument, Node, Table};
use crate::limits;

pub fn from_text(text: &str) -> Result<Instrument, TextError> {
    let lines = lines(text);
    let end = Line { number: text.lines().count() + 1, words: vec!["end".to_string()] };
    let signals = signal_names(lines.first().unwrap_or(&end))?;
    let (of_tables, rest) =
        split(&lines[1..], &["component", "inputs", "outputs", "state", "goes", "stays", "on"]);
    let (of_nodes, rest) = split(rest, &["node"]);
    let (of_starts, rest) = split(rest, &["start"]);
    if let Some(line) = rest.first() {
        return line.error(format!("{} is not expected here", line.first()));
    }
    let after_tables = of_nodes.first().unwrap_or(&end);
    let tables = tables(of_tables, after_tables, &signals)?;
    let nodes = nodes(of_nodes, of_starts.first().unwrap_or(&end), &signals, &tables)?;
    let starts = starts(of_starts, &tables, &state_names(of_tables)?)?;
    Ok(Instrument { signals: signals.count(), tables, nodes, starts })
}

/// The lines up to the first one that begins with another word, and the others.
fn split<'a>(lines: &'a [Line], words: &[&str]) -> (&'a [Line], &'a [Line]) {
    let other = lines.iter().position(|line| !words.contains(&line.first()));
    lines.split_at(other.unwrap_or(lines.len()))
}

/// The line `signals NAMES`.
fn signal_names(line: &Line) -> Result<Names, TextError> {
    if line.first() != "signals" {
        return line.error("the first line is: signals NAMES");
    }
    let mut signals = Names::new("signal");
    for name in line.rest() {
        signals.add(line, name)?;
    }
    if signals.count() > limits::SIGNALS {
        return line.error(format!("there are more than {} signals", limits::SIGNALS));
    }
    Ok(signals)
}

fn tables(lines: &[Line], after: &Line, signals: &Names) -> Result<Vec<Table>, TextError> {
    let mut tables = Vec::new();
    let begins = component_lines(lines);
    if begins.first() != Some(&0) {
        return lines.first().unwrap_or(after).error("a line component is expected here");
    }
    for (c, &begin) in begins.iter().enumerate() {
        if c == limits::COMPONENTS {
            return lines[begin].error(format!("there are more than {c} components"));
        }
        let end = begins.get(c + 1).copied().unwrap_or(lines.len());
        let table = table(&lines[begin], &lines[begin + 1..end], signals, &tables)?;
        tables.push(table);
    }
    Ok(tables)
}

fn component_lines(lines: &[Line]) -> Vec<usize> {
    (0..lines.len()).filter(|&i| lines[i].first() == "component").collect()
}

/// The state names of each component, for the start lines.
fn state_names(lines: &[Line]) -> Result<Vec<Names>, TextError> {
    let mut all = Vec::new();
    for line in lines {
        if line.first() == "component" {
            all.push(Names::new("state"));
        }
        if line.first() == "state" {
            let component = all.last_mut().expect("the tables were read before");
            component.add(line, &line.words[1])?;
        }
    }
    Ok(all)
}

/// The lines `node NAME KIND OPERANDS`.
fn nodes(
    lines: &[Line],
    after: &Line,
    signals: &Names,
    tables: &[Table],
) -> Result<Vec<Node>, TextError> {
    let mut names = Names::new("node");
    let mut nodes = Vec::new();
    for line in lines {
        if nodes.len() == limits::NODES {
            return line.error(format!("there are more than {} nodes", limits::NODES));
        }
        if line.words.len() < 3 {
            return line.error("a node line is: node NAME KIND OPERANDS");
        }
        nodes.push(node(line, &names, signals, tables)?);
        names.add(line, &line.words[1])?;
    }
    if nodes.is_empty() {
        return after.error("a line node is expected here");
    }
    Ok(nodes)
}

fn node(line: &Line, names: &Names, signals: &Names, tables: &[Table]) -> Result<Node, TextError> {
    let kind = line.words[2].as_str();
    let operands = &line.words[3..];
    let wanted = match kind {
        "true" => 0,
        "signal" | "not" | "EX" | "EG" => 1,
        "or" | "EU" => 2,
        _ => return line.error(format!("{kind} is not a kind of node")),
    };
    if operands.len() != wanted {
        return line.error(format!("{kind} has {wanted} operands"));
    }
    let operand = |position: usize| names.number(line, &operands[position]);
    Ok(match kind {
        "true" => Node::True,
        "signal" => {
            let signal = signals.number(line, &operands[0])?;
            if !tables.iter().any(|table| table.drives(signal)) {
                return line.error(format!("no component drives signal {}", operands[0]));
            }
            Node::Signal(signal)
        }
        "not" => Node::Not(operand(0)?),
        "or" => Node::Or(operand(0)?, operand(1)?),
        "EX" => Node::Ex(operand(0)?),
        "EG" => Node::Eg(operand(0)?),
        _ => Node::Eu(operand(0)?, operand(1)?),
    })
}

/// The lines `start STATES`, one state per component.
fn starts(
    lines: &[Line],
    tables: &[Table],
    states: &[Names],
) -> Result<Vec<Vec<usize>>, TextError> {
    let mut starts = Vec::new();
    for line in lines {
        if starts.len() == limits::STARTS {
            return line.error(format!("there are more than {} starts", limits::STARTS));
        }
        if line.rest().len() != tables.len() {
            return line.error(format!("a start has {} states", tables.len()));
        }
        let mut start = Vec::new();
        for (c, name) in line.rest().iter().enumerate() {
            start.push(states[c].number(line, name)?);
        }
        starts.push(start);
    }
    Ok(starts)
}
