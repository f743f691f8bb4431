//! The inputs: instrument files, each with a name that says what is large about it.

mod chains;
mod formulas;
mod four;
mod lamps;
mod merging;
mod order;
mod random;
mod small;
mod steady;

use second::fields;
use second::instrument::Instrument;

pub struct Input {
    pub name: String,
    pub file: Vec<u8>,
    /// The combined state that the lookup asks for: the last of every component, 0 past the last.
    pub asked: [u32; 4],
}

impl Input {
    fn new(name: impl Into<String>, instrument: &Instrument) -> Input {
        let mut asked = [0; 4];
        for (state, table) in asked.iter_mut().zip(&instrument.tables) {
            *state = table.states() as u32 - 1;
        }
        Input { name: name.into(), file: fields::write(instrument), asked }
    }

    /// How many combined states there are.
    pub fn states(&self) -> u64 {
        self.asked.iter().map(|&last| u64::from(last) + 1).product()
    }
}

/// The inputs of the full way, in the order of the table.
pub fn full() -> Vec<Input> {
    let mut inputs = small::inputs();
    inputs.extend(random::inputs());
    inputs.extend(chains::inputs());
    inputs.extend(order::inputs());
    inputs
}

/// The inputs of the short way.
pub fn short() -> Vec<Input> {
    let mut inputs = four::inputs();
    inputs.extend(steady::inputs());
    inputs.extend(lamps::inputs());
    inputs.extend(merging::inputs());
    inputs.extend(order::short_inputs());
    inputs
}
