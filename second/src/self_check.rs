//! The self-check over many seeds.

use crate::check::check;
use crate::counts::Counts;
use crate::generator;
use crate::instrument::Instrument;
use crate::notation::to_text;
use crate::prng::Prng;
use crate::reading::Reading;
use crate::reduce::reduce;

/// A violated check: the seed, what is violated, and the smallest instrument
/// found that shows a violation.
pub struct Found {
    pub seed: u64,
    pub violation: String,
    pub instrument: Instrument,
}

impl Found {
    pub fn text(&self) -> String {
        let text = to_text(&self.instrument);
        format!("violation at seed {}: {}\n{text}", self.seed, self.violation)
    }
}

/// Checks the seeds from `first` on, up to the first violation.
pub fn self_check(first: u64, count: u64, reading: Reading, counts: &mut Counts) -> Option<Found> {
    for seed in first..first + count {
        let instrument = generator::instrument(&mut Prng::new(seed));
        if check(&instrument, seed, reading, counts).is_err() {
            return Some(smallest(&instrument, seed, reading));
        }
    }
    None
}

/// Reduces the instrument for as long as some check of it is violated.
fn smallest(instrument: &Instrument, seed: u64, reading: Reading) -> Found {
    let result = |smaller: &Instrument| check(smaller, seed, reading, &mut Counts::default());
    let instrument = reduce(instrument, &|smaller| result(smaller).is_err());
    let violation = result(&instrument).expect_err("the last instrument shows a violation");
    Found { seed, violation, instrument }
}
