//! Truth and FAIL against all lassos, on tiny systems.

use super::{Checked, Violation};
use crate::counts::Counts;
use crate::lasso::{fail_by_lassos, truth_by_lassos};

/// The most states of a system whose lassos are listed.
const LISTED_STATES: usize = 6;

pub fn check(checked: &Checked, counts: &mut Counts) -> Result<(), Violation> {
    let nodes = &checked.instrument.nodes;
    if let Some((combination, truth)) = &checked.full {
        if combination.size() <= LISTED_STATES {
            let by_lassos = truth_by_lassos(combination, nodes);
            for (k, by_lasso) in by_lassos.iter().enumerate() {
                if truth[k] != *by_lasso {
                    return Err(format!(
                        "node {k} is true in {:?}, by lassos in {by_lasso:?}",
                        truth[k]
                    ));
                }
            }
            counts.add("truths by lassos", nodes.len() * combination.size());
        }
    }
    for (c, table) in checked.instrument.tables.iter().enumerate() {
        if table.states() > LISTED_STATES {
            continue;
        }
        let marks = &checked.queries.bench.marks[c];
        for (k, node) in nodes.iter().enumerate() {
            let Some(fail) = fail_by_lassos(table, node, marks) else {
                continue;
            };
            if fail != marks[k].fail {
                return Err(format!("component {c} node {k}: FAIL is not that of all lassos"));
            }
            counts.add("FAIL sets by lassos", 1);
        }
    }
    Ok(())
}
