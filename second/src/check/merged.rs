//! Merged words, the lookup and the verdict against full truth. Demand 3.

use super::{Checked, Violation};
use crate::combination;
use crate::counts::Counts;
use crate::limits;
use crate::refusal::Refusal;
use crate::verdict::{verdict, Stage};
use crate::word::bit;

/// In every combined state, and for the root and every node under it, the bit
/// of the merged word is the full truth; other bits are 0.
pub fn check(checked: &Checked, counts: &mut Counts) -> Result<(), Violation> {
    let bench = &checked.queries.bench;
    let merged_size = combination::size(&bench.merged_tables);
    let full_size = combination::size(&checked.instrument.tables);
    count_sizes(merged_size, full_size, counts);
    let words = match (&bench.merged_words, merged_size > limits::COMBINED_STATES) {
        (Ok(words), false) if words.len() == merged_size => words,
        (Err(Refusal::MergedTooLarge), true) => return Ok(()),
        _ => return Err("merged words are not one per merged state, or 12".to_string()),
    };
    let Some((combination, truth)) = &checked.full else {
        return Ok(());
    };
    let under = checked.instrument.under_root();
    for (i, states) in combination.states.iter().enumerate() {
        let word = u64::from(words[bench.merged_index(states)]);
        for k in 0..checked.instrument.nodes.len() {
            if under[k] && bit(word, k) != truth[k][i] {
                return Err(format!(
                    "node {k} is {} in {states:?}, its merged bit is not",
                    truth[k][i]
                ));
            }
            if !under[k] && bit(word, k) {
                return Err(format!("node {k} is not under the root, its merged bit is set"));
            }
        }
        counts.add("merged bits compared", under.iter().filter(|&&under| under).count());
    }
    check_lookups(checked, counts)?;
    let root = &truth[checked.instrument.root()];
    if root.contains(&true) && root.contains(&false) {
        counts.add("roots true in some states and false in others", 1);
    }
    Ok(())
}

/// The lookup answers every combined state as the full truth does at the root.
fn check_lookups(checked: &Checked, counts: &mut Counts) -> Result<(), Violation> {
    let Some((combination, truth)) = &checked.full else {
        return Ok(());
    };
    for (i, states) in combination.states.iter().enumerate() {
        let mut asked = [0; 4];
        for (c, &state) in states.iter().enumerate() {
            asked[c] = state as u32;
        }
        let expected = truth[checked.instrument.root()][i];
        if checked.queries.lookup(asked) != Ok(expected) {
            return Err(format!("the lookup of {states:?} is not {expected}"));
        }
        counts.add("lookups", 1);
    }
    Ok(())
}

fn count_sizes(merged: usize, full: usize, counts: &mut Counts) {
    if merged < full {
        counts.add("merges that are real", 1);
    }
    if 1 < merged && merged < full {
        counts.add("merges that are real and leave several states", 1);
    }
    if full > limits::COMBINED_STATES && merged <= limits::COMBINED_STATES {
        counts.add("full above 4,096 and merged not", 1);
    }
    if merged > limits::COMBINED_STATES {
        counts.add("merged above 4,096", 1);
    }
}

/// The verdict is the full truth over the starts; 12 is its only refusal.
pub fn check_verdict(checked: &Checked, counts: &mut Counts) -> Result<(), Violation> {
    let too_large = checked.queries.bench.merged_words.is_err();
    let verdict = match verdict(&checked.queries.bench) {
        Ok(verdict) => verdict,
        Err(Refusal::MergedTooLarge) if too_large => {
            counts.add("verdicts refused 12", 1);
            return Ok(());
        }
        Err(refusal) => return Err(format!("the verdict is refused {}", refusal.number())),
    };
    counts.add(&format!("verdicts {}", verdict.text()), 1);
    if too_large {
        counts.add("verdicts by marks where merged is above 4,096", 1);
    }
    let tables = &checked.instrument.tables;
    let starts = &checked.instrument.starts;
    if starts.is_empty() && !(verdict.holds && verdict.stage == Stage::Marks) {
        return Err("without starts the verdict is not holds, marks".to_string());
    }
    if let Some((_, truth)) = &checked.full {
        let root = &truth[checked.instrument.root()];
        let holds = starts.iter().all(|start| root[combination::index(tables, start)]);
        if holds != verdict.holds {
            return Err(format!("the verdict is {}, the full truth is not", verdict.text()));
        }
    }
    Ok(())
}
