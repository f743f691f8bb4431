//! Every question about one file, answered by the library and by the second checker.

use std::fmt::Debug;

use second::prng::Prng;
use second::queries::Queries;
use second::refusal::Refusal;
use second::verdict::Stage;

use crate::counts::Counts;
use crate::lent::compare_lent;

/// Up to so many combined states, each is looked up.
const ALL_STATES: usize = 64;

pub fn compare(file: &[u8], prng: &mut Prng, counts: &mut Counts) -> Result<(), String> {
    let queries = Queries::of(file);
    match &queries {
        Ok(_) => counts.add("files accepted", 1),
        Err(refusal) => counts.add(&format!("files refused by {:02}", refusal.number()), 1),
    }
    compare_entries(file, &queries, counts)?;
    compare_verdict(file, &queries, counts)?;
    compare_lookups(file, &queries, prng, counts)?;
    compare_components(file, &queries, counts)
}

/// The answer to a question that an accepted file always answers.
fn answered<T>(
    queries: &Result<Queries, Refusal>,
    answer: impl Fn(&Queries) -> T,
) -> Result<T, Refusal> {
    queries.as_ref().map(answer).map_err(|&refusal| refusal)
}

fn compare_entries(
    file: &[u8],
    queries: &Result<Queries, Refusal>,
    counts: &mut Counts,
) -> Result<(), String> {
    let full = answered(queries, Queries::full).and_then(|answer| answer);
    compare_lent("full_words", pinthar::full_words, file, &full, counts)?;
    let marks = answered(queries, Queries::marks);
    compare_lent("mark_words", pinthar::mark_words, file, &marks, counts)?;
    let classes = answered(queries, Queries::classes);
    compare_lent("class_names", pinthar::class_names, file, &classes, counts)?;
    let merged = answered(queries, Queries::merged).and_then(|answer| answer);
    compare_lent("merged_words", pinthar::merged_words, file, &merged, counts)?;
    let listing = answered(queries, Queries::listing).and_then(|answer| answer);
    let text = listing.map(String::into_bytes);
    compare_lent("listing", pinthar::listing, file, &text, counts)
}

fn same<T: PartialEq + Debug>(
    question: &str,
    given: Result<T, pinthar::Refusal>,
    wanted: Result<T, Refusal>,
) -> Result<(), String> {
    let given = given.map_err(|refusal| refusal.number() as usize);
    let wanted = wanted.map_err(Refusal::number);
    if given == wanted {
        return Ok(());
    }
    Err(format!("{question}: {given:?}, but the second checker {wanted:?}"))
}

fn compare_verdict(
    file: &[u8],
    queries: &Result<Queries, Refusal>,
    counts: &mut Counts,
) -> Result<(), String> {
    let wanted = answered(queries, Queries::verdict).and_then(|answer| answer);
    let wanted = wanted.map(|verdict| (verdict.holds, verdict.stage == Stage::Marks));
    let given = pinthar::verdict(file);
    let given = given.map(|verdict| (verdict.holds, verdict.stage == pinthar::Stage::Marks));
    counts.add("calls of verdict", 1);
    if let Ok((holds, marks)) = &wanted {
        counts.add(&format!("verdicts: holds {holds}, by marks {marks}"), 1);
    }
    same("verdict", given, wanted)
}

fn compare_lookups(
    file: &[u8],
    queries: &Result<Queries, Refusal>,
    prng: &mut Prng,
    counts: &mut Counts,
) -> Result<(), String> {
    for asked in asked_states(queries, prng) {
        let wanted = answered(queries, |queries| queries.lookup(asked)).and_then(|answer| answer);
        counts.add("calls of lookup", 1);
        same(&format!("lookup {asked:?}"), pinthar::lookup(file, asked), wanted)?;
    }
    Ok(())
}

/// All combined states where they are few, else some; and numbers that are none.
fn asked_states(queries: &Result<Queries, Refusal>, prng: &mut Prng) -> Vec<[u32; 4]> {
    let mut sizes = [1usize; 4];
    if let Ok(queries) = queries {
        for (c, table) in queries.bench.instrument.tables.iter().enumerate() {
            sizes[c] = table.states();
        }
    }
    let all: usize = sizes.iter().product();
    let mut asked = Vec::new();
    for i in 0..all.min(ALL_STATES) {
        let mut index = if all <= ALL_STATES { i } else { prng.below(all) };
        asked.push(sizes.map(|size| {
            let state = index % size;
            index /= size;
            state as u32
        }));
    }
    for c in 0..4 {
        let size = sizes[c] as u32;
        for wrong in [size, size + 1, 64, 256, 1 << 16, u32::MAX] {
            let mut states = asked[0];
            states[c] = wrong;
            asked.push(states);
        }
    }
    asked
}

fn compare_components(
    file: &[u8],
    queries: &Result<Queries, Refusal>,
    counts: &mut Counts,
) -> Result<(), String> {
    for c in [0, 1, 2, 3, 4, 5, 256, 1 << 16, u32::MAX] {
        let given = pinthar::component(file, c);
        let wanted = match queries {
            Ok(queries) => queries.stretch(c),
            Err(refusal) => Err(*refusal),
        };
        counts.add("calls of component", 1);
        same(&format!("component {c}"), given, wanted)?;
    }
    Ok(())
}
