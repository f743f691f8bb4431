//! Marks against truth. Demand 3: beside any partners a node is true where a
//! component marks PASS, and false where it marks FAIL.

use super::{steps, Checked, Violation};
use crate::combination::Combination;
use crate::counts::Counts;
use crate::instrument::Table;
use crate::partners::{partners, FURTHER_SIGNALS};
use crate::prng::Prng;
use crate::truth::truth;

pub fn check(checked: &Checked, prng: &mut Prng, counts: &mut Counts) -> Result<(), Violation> {
    count_marks(checked, counts);
    check_never_both_ways(checked, counts)?;
    if let Some((combination, truth)) = &checked.full {
        for c in 0..checked.instrument.tables.len() {
            let number = check_beside(checked, c, c, combination, truth)?;
            counts.add("mark checks beside the file's components", number);
        }
    }
    for c in 0..checked.instrument.tables.len() {
        let mut tables: Vec<Table> = vec![checked.instrument.tables[c].clone()];
        tables.extend(partners(prng, checked.instrument, c));
        let signals = checked.instrument.signals + FURTHER_SIGNALS;
        let combination = Combination::of(&tables, signals, checked.reading);
        steps::check(&tables, signals, &combination, counts)?;
        let truth = truth(&combination, &checked.instrument.nodes, checked.reading);
        let number = check_beside(checked, c, 0, &combination, &truth)?;
        counts.add("partner tables", tables.len() - 1);
        counts.add("partner combinations", 1);
        counts.add("mark checks beside partners", number);
    }
    Ok(())
}

fn count_marks(checked: &Checked, counts: &mut Counts) {
    for marks in checked.queries.bench.marks.iter().flatten() {
        counts.add("PASS marks", marks.pass.iter().filter(|&&marked| marked).count());
        counts.add("FAIL marks", marks.fail.iter().filter(|&&marked| marked).count());
    }
}

/// The marks of component c, which is table number `position` of the
/// combination. Answers how many marks were compared.
fn check_beside(
    checked: &Checked,
    c: usize,
    position: usize,
    combination: &Combination,
    truth: &[Vec<bool>],
) -> Result<usize, Violation> {
    let mut number = 0;
    for (k, marks) in checked.queries.bench.marks[c].iter().enumerate() {
        for (i, states) in combination.states.iter().enumerate() {
            let state = states[position];
            if marks.pass[state] && !truth[k][i] {
                return Err(format!(
                    "component {c} state {state} is PASS of node {k}, which is false in {states:?}"
                ));
            }
            if marks.fail[state] && truth[k][i] {
                return Err(format!(
                    "component {c} state {state} is FAIL of node {k}, which is true in {states:?}"
                ));
            }
            if marks.pass[state] || marks.fail[state] {
                number += 1;
            }
        }
    }
    Ok(number)
}

/// No combined state is PASS of a node by one component and FAIL of it by
/// another, nor by the same one (document 02, 6/14). Every pair of states of two
/// components is in some combined state.
fn check_never_both_ways(checked: &Checked, counts: &mut Counts) -> Result<(), Violation> {
    let components = checked.queries.bench.marks.len();
    for k in 0..checked.instrument.nodes.len() {
        for c in 0..components {
            for d in 0..components {
                let passes = &checked.queries.bench.marks[c][k].pass;
                let fails = &checked.queries.bench.marks[d][k].fail;
                let meet = (0..passes.len())
                    .any(|s| (0..fails.len()).any(|t| (c != d || s == t) && passes[s] && fails[t]));
                if meet {
                    return Err(format!("node {k} is PASS by component {c} and FAIL by {d}"));
                }
                counts.add("pairs of components never marked both ways", 1);
            }
        }
    }
    Ok(())
}
