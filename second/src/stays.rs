//! The two ways to write that a state stays where it is: the set of the state
//! alone, and the empty set. Document 02, 2/14.

use crate::instrument::Instrument;

#[derive(Clone, Copy, Debug, PartialEq, Eq)]
pub enum Stay {
    SpelledOut,
    Empty,
}

impl Stay {
    /// The set of the state, written this way.
    pub fn set(self, state: usize) -> Vec<usize> {
        match self {
            Stay::SpelledOut => vec![state],
            Stay::Empty => vec![],
        }
    }
}

/// Whether the written set means the state alone.
pub fn is_stay(written: &[usize], state: usize) -> bool {
    written.is_empty() || written == [state]
}

/// The instrument with every stay written one way.
pub fn every_stay(instrument: &Instrument, stay: Stay) -> Instrument {
    let mut respelled = instrument.clone();
    for table in &mut respelled.tables {
        for (state, sets) in table.sets.as_written_mut().iter_mut().enumerate() {
            for set in sets.iter_mut().filter(|set| is_stay(set, state)) {
                *set = stay.set(state);
            }
        }
    }
    respelled
}
