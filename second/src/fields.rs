//! An instrument as the numbers of its file, in file order, each with its place.
//! Document 01, "The instrument file".

use crate::instrument::{Instrument, Node, Table};
use crate::number::write_number;
use crate::word::word_of;

/// What a number of the file is.
#[derive(Clone, Copy, Debug, PartialEq, Eq)]
pub enum Place {
    ComponentCount,
    SignalCount,
    StateCount,
    InputCount,
    /// The component and the position in its list.
    Input(usize, usize),
    OutputCount,
    /// The component and the position in its list.
    Output(usize, usize),
    /// The component.
    OutputWord(usize),
    /// The component.
    SuccessorSet(usize),
    NodeCount,
    Kind,
    SignalOperand,
    /// The node whose operand it is.
    NodeOperand(usize),
    StartCount,
    /// The component.
    StartState(usize),
}

#[derive(Clone, Copy, Debug, PartialEq, Eq)]
pub struct Field {
    pub place: Place,
    pub value: u64,
}

/// The bytes of the instrument's file.
pub fn write(instrument: &Instrument) -> Vec<u8> {
    fields(instrument).iter().flat_map(|field| write_number(field.value)).collect()
}

/// The numbers of the instrument's file.
pub fn fields(instrument: &Instrument) -> Vec<Field> {
    let mut fields = Vec::new();
    add(&mut fields, Place::ComponentCount, instrument.tables.len());
    add(&mut fields, Place::SignalCount, instrument.signals);
    for (c, table) in instrument.tables.iter().enumerate() {
        add_table(&mut fields, c, table);
    }
    add(&mut fields, Place::NodeCount, instrument.nodes.len());
    for (k, node) in instrument.nodes.iter().enumerate() {
        add(&mut fields, Place::Kind, node.kind() as usize);
        if let Node::Signal(signal) = *node {
            add(&mut fields, Place::SignalOperand, signal);
        }
        for operand in node.operands() {
            add(&mut fields, Place::NodeOperand(k), operand);
        }
    }
    add(&mut fields, Place::StartCount, instrument.starts.len());
    for start in &instrument.starts {
        for (c, &state) in start.iter().enumerate() {
            add(&mut fields, Place::StartState(c), state);
        }
    }
    fields
}

fn add(fields: &mut Vec<Field>, place: Place, value: usize) {
    fields.push(Field { place, value: value as u64 });
}

fn add_table(fields: &mut Vec<Field>, c: usize, table: &Table) {
    add(fields, Place::StateCount, table.states());
    add(fields, Place::InputCount, table.inputs.len());
    for (position, &signal) in table.inputs.iter().enumerate() {
        add(fields, Place::Input(c, position), signal);
    }
    add(fields, Place::OutputCount, table.outputs.len());
    for (position, &signal) in table.outputs.iter().enumerate() {
        add(fields, Place::Output(c, position), signal);
    }
    for levels in &table.levels {
        fields.push(Field { place: Place::OutputWord(c), value: word_of(levels) });
    }
    for sets in table.sets.as_written() {
        for set in sets {
            let members: Vec<bool> = (0..table.states()).map(|t| set.contains(&t)).collect();
            fields.push(Field { place: Place::SuccessorSet(c), value: word_of(&members) });
        }
    }
}
