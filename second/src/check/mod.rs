//! The checks of one instrument. Each answers what is violated, if anything.

mod answers;
mod enumeration;
mod files;
mod full;
mod lamps;
mod lassos;
mod marks;
mod merged;
mod relation;
mod rules;
mod stays;
mod steps;

use crate::combination::{self, Combination};
use crate::counts::Counts;
use crate::fields::write;
use crate::instrument::Instrument;
use crate::prng::Prng;
use crate::queries::Queries;
use crate::reading::Reading;
use crate::truth::truth;

/// What is violated, in plain words.
pub type Violation = String;

/// The most combined states that are built here. It is above 4,096, so that
/// merged answers are also compared where the full way refuses.
const STATES_BUILT: usize = 7_000;

/// An instrument with its answers under one reading.
pub struct Checked<'a> {
    pub instrument: &'a Instrument,
    pub queries: Queries,
    /// The full combination and its truth, where it is small enough to build.
    pub full: Option<(Combination, Vec<Vec<bool>>)>,
    pub reading: Reading,
}

/// Makes every check of a good instrument and of damaged files made from it.
pub fn check(
    instrument: &Instrument,
    seed: u64,
    reading: Reading,
    counts: &mut Counts,
) -> Result<(), Violation> {
    let mut prng = Prng::new(seed);
    counts.add("instruments", 1);
    files::check_good_file(instrument, counts)?;
    files::check_damaged_files(instrument, &mut prng, counts)?;
    let queries = Queries::under(&write(instrument), reading)
        .map_err(|refusal| format!("a good file is refused {}", refusal.number()))?;
    let full = (combination::size(&instrument.tables) <= STATES_BUILT).then(|| {
        let combination = Combination::of(&instrument.tables, instrument.signals, reading);
        let truth = truth(&combination, &instrument.nodes, reading);
        (combination, truth)
    });
    let checked = Checked { instrument, queries, full, reading };
    if let Some((combination, _)) = &checked.full {
        steps::check(&instrument.tables, instrument.signals, combination, counts)?;
    }
    marks::check(&checked, &mut prng, counts)?;
    relation::check(&checked, counts)?;
    full::check(&checked, counts)?;
    merged::check(&checked, counts)?;
    merged::check_verdict(&checked, counts)?;
    lassos::check(&checked, counts)?;
    enumeration::check(&checked, counts)?;
    stays::check(&checked, &mut prng, counts)?;
    lamps::check(&checked, &mut prng, counts)?;
    files::check_lent_buffers(&checked.queries, counts)
}
