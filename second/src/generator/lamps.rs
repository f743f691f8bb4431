//! Lamps of a drawn instrument: further outputs, which no other component or only
//! one lists as an input. Document 02, 3/14.

use crate::instrument::{Instrument, Node, Table, WrittenSets};
use crate::lamps::read_outputs;
use crate::limits;
use crate::prng::Prng;
use crate::word::{bit, power};

/// Mostly one or two further outputs; else one component gets as many as there can
/// be, and often the first or the last of them alone is read.
pub fn add_lamps(prng: &mut Prng, instrument: &mut Instrument) {
    let components = instrument.tables.len();
    if prng.percent(75) {
        for _ in 0..prng.between(1, 2) {
            let c = prng.below(components);
            add_lamp(prng, instrument, c);
        }
        return;
    }
    let c = prng.below(components);
    while room(instrument, c) {
        add_lamp(prng, instrument, c);
    }
    let outputs = instrument.tables[c].outputs.clone();
    if prng.percent(60) && !outputs.is_empty() {
        let ends = [outputs[0], outputs[outputs.len() - 1]];
        let signal = *prng.one_of(&ends);
        read_alone(prng, instrument, c, signal);
    }
}

/// Other components list every output, where one has room.
pub fn list_all(prng: &mut Prng, instrument: &mut Instrument) {
    for c in 0..instrument.tables.len() {
        let read = read_outputs(&instrument.tables, c);
        for (j, signal) in instrument.tables[c].outputs.clone().into_iter().enumerate() {
            if !read[j] {
                add_reader(prng, instrument, c, signal);
            }
        }
    }
}

/// Whether the component can have one more output.
fn room(instrument: &Instrument, c: usize) -> bool {
    let outputs = instrument.tables[c].outputs.len();
    outputs < limits::OUTPUTS && instrument.signals < limits::SIGNALS
}

/// One more output of component c, where there is room, at any place among the
/// signals and with any levels. States that were alike then often differ in it only.
/// Half of them are read; a fifth are named by the formula.
fn add_lamp(prng: &mut Prng, instrument: &mut Instrument, c: usize) {
    if !room(instrument, c) {
        return;
    }
    let signal = prng.between(0, instrument.signals);
    make_room(instrument, signal);
    let table = &mut instrument.tables[c];
    let j = table.outputs.iter().filter(|&&output| output < signal).count();
    table.outputs.insert(j, signal);
    for levels in table.levels.iter_mut() {
        levels.insert(j, prng.percent(50));
    }
    if prng.percent(50) {
        add_reader(prng, instrument, c, signal);
    }
    if prng.percent(20) {
        name_in_formula(prng, instrument, signal);
    }
}

/// Signals from this one on get the next number.
fn make_room(instrument: &mut Instrument, signal: usize) {
    let next = |listed: &mut usize| *listed += usize::from(*listed >= signal);
    instrument.signals += 1;
    for table in instrument.tables.iter_mut() {
        table.inputs.iter_mut().chain(table.outputs.iter_mut()).for_each(next);
    }
    for node in instrument.nodes.iter_mut() {
        if let Node::Signal(named) = node {
            next(named);
        }
    }
}

/// Another component, earlier or later, lists the signal, where one has room. Half of
/// the time its steps do not depend on it.
fn add_reader(prng: &mut Prng, instrument: &mut Instrument, c: usize, signal: usize) {
    let can_read = |d: &usize| *d != c && instrument.tables[*d].inputs.len() < limits::INPUTS;
    let readers: Vec<usize> = (0..instrument.tables.len()).filter(can_read).collect();
    if !readers.is_empty() {
        let reader = *prng.one_of(&readers);
        add_input(prng, &mut instrument.tables[reader], signal);
    }
}

/// Where the input is low, the steps are as before. Where it is high, they are so too,
/// or each state does what some state, drawn once, did before.
fn add_input(prng: &mut Prng, table: &mut Table, signal: usize) {
    let j = table.inputs.iter().filter(|&&input| input < signal).count();
    table.inputs.insert(j, signal);
    let before = table.sets.as_written().to_vec();
    let used = prng.percent(50);
    let mut sets = Vec::new();
    for state in 0..before.len() {
        let when_high = if used { prng.below(before.len()) } else { state };
        let set = |assignment: u64| {
            let lower = assignment % power(j);
            let without = lower + (assignment - lower) / power(j + 1) * power(j);
            let from = if bit(assignment, j) { when_high } else { state };
            before[from][without as usize].clone()
        };
        sets.push((0..power(table.inputs.len())).map(set).collect());
    }
    table.sets = WrittenSets::new(sets);
}

/// Some signal node names the signal instead of its own.
fn name_in_formula(prng: &mut Prng, instrument: &mut Instrument, signal: usize) {
    let is_signal = |k: &usize| matches!(instrument.nodes[*k], Node::Signal(_));
    let places: Vec<usize> = (0..instrument.nodes.len()).filter(is_signal).collect();
    if !places.is_empty() {
        instrument.nodes[*prng.one_of(&places)] = Node::Signal(signal);
    }
}

/// Other components list no output of component c any more; one lists the signal.
fn read_alone(prng: &mut Prng, instrument: &mut Instrument, c: usize, signal: usize) {
    let outputs = instrument.tables[c].outputs.clone();
    for table in instrument.tables.iter_mut() {
        while let Some(j) = table.inputs.iter().position(|input| outputs.contains(input)) {
            table.remove_input(j);
        }
    }
    add_reader(prng, instrument, c, signal);
}
