//! Partner tables for a component. Document 01, "Marks", and demand 3.
//!
//! Partners take the place of the file's other components: any number and size,
//! a successor on every assignment, at least one state, none of the component's
//! outputs driven, every other signal that the formula names driven. They may
//! share outputs among themselves and read their own.

use crate::generator::random_table;
use crate::instrument::{Instrument, Table};
use crate::prng::Prng;

/// Signals of the partners only, past those of the file.
pub const FURTHER_SIGNALS: usize = 2;

/// One to three partners for component c.
pub fn partners(prng: &mut Prng, instrument: &Instrument, c: usize) -> Vec<Table> {
    let component = &instrument.tables[c];
    let named = instrument.named_signals();
    let count = prng.between(1, 3);
    let mut outputs = vec![Vec::new(); count];
    for signal in 0..instrument.signals + FURTHER_SIGNALS {
        if component.drives(signal) {
            continue;
        }
        for list in outputs.iter_mut() {
            if prng.percent(20) {
                list.push(signal);
            }
        }
        let driven = outputs.iter().any(|list| list.contains(&signal));
        if named.contains(&signal) && !driven {
            outputs[prng.below(count)].push(signal);
        }
    }
    let mut partners = Vec::new();
    for list in outputs {
        let states = prng.between(1, if count == 3 { 2 } else { 3 });
        let inputs = partner_inputs(prng, instrument.signals + FURTHER_SIGNALS);
        partners.push(random_table(prng, states, inputs, list));
    }
    partners
}

/// Up to two signals of any kind, ascending.
fn partner_inputs(prng: &mut Prng, signals: usize) -> Vec<usize> {
    let mut inputs: Vec<usize> = (0..prng.between(0, 2)).map(|_| prng.below(signals)).collect();
    inputs.sort();
    inputs.dedup();
    inputs
}
