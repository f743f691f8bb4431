//! Whether two files get the same answers, where only their bytes may differ.

use crate::combination;
use crate::counts::Counts;
use crate::prng::Prng;
use crate::queries::Queries;

/// Up to so many combined states, each is looked up; else so many are drawn.
const LOOKED_UP: usize = 500;

/// The first question, but for stretches, that the two answer differently. Relations,
/// which no question tells, are compared too. `files` says in the counts which files
/// these are.
pub fn different(
    a: &Queries,
    b: &Queries,
    files: &str,
    prng: &mut Prng,
    counts: &mut Counts,
) -> Option<String> {
    let same = [
        ("full", a.full() == b.full()),
        ("marks", a.marks() == b.marks()),
        ("classes", a.classes() == b.classes()),
        ("merged", a.merged() == b.merged()),
        ("listing", a.listing() == b.listing()),
        ("verdict", a.verdict() == b.verdict()),
        ("relations", a.bench.relations == b.bench.relations),
    ];
    if let Some((question, _)) = same.iter().find(|(_, same)| !same) {
        return Some(question.to_string());
    }
    let asked = asked_states(a, prng);
    counts.add(&format!("lookups of files {files}"), asked.len());
    let other = asked.into_iter().find(|&states| a.lookup(states) != b.lookup(states));
    other.map(|states| format!("lookup {states:?}"))
}

/// Combined states, and for each place one that is in no component.
fn asked_states(queries: &Queries, prng: &mut Prng) -> Vec<[u32; 4]> {
    let tables = &queries.bench.instrument.tables;
    let size = combination::size(tables);
    let mut asked = Vec::new();
    for i in 0..size.min(LOOKED_UP) {
        let index = if size <= LOOKED_UP { i } else { prng.below(size) };
        let mut four = [0; 4];
        for (c, state) in combination::states_at(tables, index).into_iter().enumerate() {
            four[c] = state as u32;
        }
        asked.push(four);
    }
    for c in 0..4 {
        let mut outside = asked[0];
        outside[c] = tables.get(c).map_or(1, |table| table.states() as u32);
        asked.push(outside);
    }
    asked
}
