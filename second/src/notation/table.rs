//! A component's lines of the text notation.

use super::lines::{Line, Names, TextError};
use crate::instrument::{Table, WrittenSets};
use crate::limits;
use crate::word::power;

/// Reads the lines of one component; `line` is the line `component`.
pub fn table(
    line: &Line,
    lines: &[Line],
    signals: &Names,
    earlier: &[Table],
) -> Result<Table, TextError> {
    if line.words.len() > 2 {
        return line.error("component takes at most one name");
    }
    let (inputs, lines) = listed(line, lines, "inputs", signals, limits::INPUTS)?;
    let (outputs, lines) = listed(line, lines, "outputs", signals, limits::OUTPUTS)?;
    for signal in &outputs {
        if inputs.contains(signal) {
            return line.error(format!("output number {signal} is also an input"));
        }
        if earlier.iter().any(|table| table.drives(*signal)) {
            return line.error(format!("output number {signal} is driven by an earlier component"));
        }
    }
    let states = state_names(line, lines)?;
    let mut table = Table { inputs, outputs, levels: vec![], sets: WrittenSets::new(vec![]) };
    let begins: Vec<usize> = (0..lines.len()).filter(|&i| lines[i].first() == "state").collect();
    for (s, &begin) in begins.iter().enumerate() {
        let end = begins.get(s + 1).copied().unwrap_or(lines.len());
        let levels = levels(&lines[begin], signals, &table.outputs)?;
        table.levels.push(levels);
        let sets = sets(&lines[begin], &lines[begin + 1..end], &states, table.inputs.len())?;
        table.sets.as_written_mut().push(sets);
    }
    Ok(table)
}

/// The line `inputs ..` or `outputs ..`, and the lines after it.
fn listed<'a>(
    component: &Line,
    lines: &'a [Line],
    word: &str,
    signals: &Names,
    most: usize,
) -> Result<(Vec<usize>, &'a [Line]), TextError> {
    let line = match lines.first() {
        Some(line) if line.first() == word => line,
        Some(line) => return line.error(format!("a line {word} is expected here")),
        None => return component.error(format!("the component has no line {word}")),
    };
    if line.rest().len() > most {
        return line.error(format!("there are more than {most} {word}"));
    }
    Ok((signals.ascending(line, line.rest())?, &lines[1..]))
}

/// The names of the states, from the lines `state NAME drives ..`.
fn state_names(component: &Line, lines: &[Line]) -> Result<Names, TextError> {
    let mut states = Names::new("state");
    for line in lines {
        match line.first() {
            "state" if line.words.len() < 3 || line.words[2] != "drives" => {
                return line.error("a state line is: state NAME drives SIGNALS");
            }
            "state" => states.add(line, &line.words[1])?,
            "goes" | "stays" | "on" if states.count() > 0 => {}
            word => return line.error(format!("{word} is not expected here")),
        }
        if states.count() > limits::STATES {
            return line.error(format!("there are more than {} states", limits::STATES));
        }
    }
    if states.count() == 0 {
        return component.error("the component has no state");
    }
    Ok(states)
}

/// The level of each listed output, from `state NAME drives SIGNALS`.
fn levels(line: &Line, signals: &Names, outputs: &[usize]) -> Result<Vec<bool>, TextError> {
    let mut levels = vec![false; outputs.len()];
    for name in &line.words[3..] {
        let signal = signals.number(line, name)?;
        match outputs.iter().position(|&output| output == signal) {
            Some(j) if !levels[j] => levels[j] = true,
            Some(_) => return line.error(format!("signal {name} is listed twice")),
            None => return line.error(format!("signal {name} is not an output here")),
        }
    }
    Ok(levels)
}

/// The successor set on each assignment, as it is written in the file, from the
/// lines after a state line: `goes STATES` or `stays` once for all assignments, or
/// `on DIGITS` and either of them for each.
fn sets(
    state: &Line,
    lines: &[Line],
    states: &Names,
    inputs: usize,
) -> Result<Vec<Vec<usize>>, TextError> {
    let assignments = power(inputs) as usize;
    let mut sets: Vec<Option<Vec<usize>>> = vec![None; assignments];
    for line in lines {
        let (which, words) = if line.first() == "on" && line.words.len() >= 3 {
            (vec![assignment(line, inputs)?], &line.words[2..])
        } else {
            ((0..assignments).collect(), &line.words[..])
        };
        let set = set(line, words, states)?;
        for assignment in which {
            if sets[assignment].is_some() {
                return line.error("the successors on an assignment are given twice");
            }
            sets[assignment] = Some(set.clone());
        }
    }
    match sets.into_iter().collect() {
        Some(sets) => Ok(sets),
        None => state.error("the state has no successors on some assignment"),
    }
}

/// One successor set: `goes STATES`, or `stays` for the empty one.
fn set(line: &Line, words: &[String], states: &Names) -> Result<Vec<usize>, TextError> {
    match (words[0].as_str(), &words[1..]) {
        ("stays", []) => Ok(vec![]),
        ("stays", _) => line.error("stays takes no states"),
        ("goes", []) => line.error("goes takes a state at least; the empty set is: stays"),
        ("goes", names) => states.ascending(line, names),
        _ => line.error("a successor line is: [on DIGITS] goes STATES, or: [on DIGITS] stays"),
    }
}

/// The assignment of `on DIGITS ..`: the j-th digit is the level of the
/// j-th listed input.
fn assignment(line: &Line, inputs: usize) -> Result<usize, TextError> {
    let digits: Vec<char> = line.words[1].chars().collect();
    if digits.len() != inputs || !digits.iter().all(|&digit| digit == '0' || digit == '1') {
        return line.error(format!("after on there are {inputs} digits, each 0 or 1"));
    }
    let mut assignment = 0;
    for (j, &digit) in digits.iter().enumerate() {
        if digit == '1' {
            assignment += power(j);
        }
    }
    Ok(assignment as usize)
}
