//! Outputs that no other component lists as an input. Document 02, 3/14.

use super::answers::different;
use super::{Checked, Violation};
use crate::counts::Counts;
use crate::fields::write;
use crate::instrument::Instrument;
use crate::lamps::{compared_outputs, read_outputs, unseen_outputs};
use crate::marks::marks;
use crate::prng::Prng;
use crate::queries::Queries;
use crate::reading::Reading;
use crate::relation::{relations, Component};

pub fn check(checked: &Checked, prng: &mut Prng, counts: &mut Counts) -> Result<(), Violation> {
    let instrument = checked.instrument;
    let mut unseen = 0;
    for c in 0..instrument.tables.len() {
        check_coarser(checked, c, counts)?;
        let read = read_outputs(&instrument.tables, c);
        counts.add("outputs that another component lists", read.iter().filter(|&&r| r).count());
        unseen += unseen_outputs(instrument, c).into_iter().filter(|&unseen| unseen).count();
    }
    counts.add("outputs neither listed nor named", unseen);
    if unseen == 0 {
        return Ok(());
    }
    check_same(checked, &without_unseen(instrument), "without unseen outputs", prng, counts)?;
    let other = with_other_levels(instrument, prng);
    check_same(checked, &other, "with other levels of unseen outputs", prng, counts)
}

/// States that are related where whole output words are compared are related, and
/// marks are the same.
fn check_coarser(checked: &Checked, c: usize, counts: &mut Counts) -> Result<(), Violation> {
    let reading = Reading::WholeOutputWords;
    let Instrument { tables, nodes, .. } = checked.instrument;
    let marks = marks(&tables[c], nodes, reading);
    if marks != checked.queries.bench.marks[c] {
        return Err(format!("component {c}: other marks where whole output words are compared"));
    }
    let compared = &compared_outputs(tables, c, reading);
    let finer =
        relations(&Component { table: &tables[c], compared, nodes, marks: &marks, reading });
    for (k, coarser) in checked.queries.bench.relations[c].iter().enumerate() {
        for (x, row) in finer[k].iter().enumerate() {
            if let Some(y) = (0..row.len()).find(|&y| row[y] && !coarser[x][y]) {
                return Err(format!(
                    "component {c} node {k}: {x} and {y} are related by whole output words only"
                ));
            }
        }
        counts
            .add("relations coarser than by whole output words", usize::from(*coarser != finer[k]));
    }
    Ok(())
}

/// The other file gets the same answers.
fn check_same(
    checked: &Checked,
    other: &Instrument,
    which: &str,
    prng: &mut Prng,
    counts: &mut Counts,
) -> Result<(), Violation> {
    let queries = Queries::under(&write(other), checked.reading)
        .map_err(|refusal| format!("{which}: refused {}", refusal.number()))?;
    match different(&checked.queries, &queries, which, prng, counts) {
        Some(question) => Err(format!("{which}: another answer to {question}")),
        None => Ok(()),
    }
}

/// The instrument without the outputs that nothing in the file looks at.
fn without_unseen(instrument: &Instrument) -> Instrument {
    let mut without = instrument.clone();
    for (c, table) in without.tables.iter_mut().enumerate() {
        let unseen = unseen_outputs(instrument, c);
        for j in (0..unseen.len()).rev().filter(|&j| unseen[j]) {
            table.remove_output(j);
        }
    }
    without
}

/// The instrument with drawn levels of these outputs.
fn with_other_levels(instrument: &Instrument, prng: &mut Prng) -> Instrument {
    let mut other = instrument.clone();
    for (c, table) in other.tables.iter_mut().enumerate() {
        let unseen = unseen_outputs(instrument, c);
        for levels in table.levels.iter_mut() {
            for j in (0..unseen.len()).filter(|&j| unseen[j]) {
                levels[j] = prng.percent(50);
            }
        }
    }
    other
}
