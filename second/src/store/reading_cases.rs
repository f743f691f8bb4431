//! Cases whose output is different under a wrong reading of document 01, and
//! cases whose merged combination is above 4,096.

use super::random_cases::asked_states;
use super::{output, output_under, Case};
use crate::fields::write;
use crate::generator::{lamps_of, large_different, medium, respelled_of, small, tiny, Shape};
use crate::instrument::Instrument;
use crate::prng::Prng;
use crate::queries::Queries;
use crate::reading::WRONG_READINGS;
use crate::refusal::Refusal;

/// The first seed of these cases, away from other seeds.
const FIRST_SEED: u64 = 2_000_000_000;
/// Seeds of one reading are this far from those of the next.
const SEEDS: u64 = 1_000_000;
/// The first seed of the cases above 4,096 merged states, which are drawn larger.
const FIRST_LARGE_SEED: u64 = 2_020_000_000;
/// From this wrong reading on, the cases have further lamps.
const FIRST_OF_LAMPS: usize = 22;
/// Cases for each wrong reading.
const FOR_EACH_READING: usize = 8;
/// Cases above 4,096 merged states.
const MERGED_TOO_LARGE: usize = 6;

pub fn cases() -> Vec<Case> {
    let mut cases = Vec::new();
    for (r, reading) in WRONG_READINGS.into_iter().enumerate() {
        let name = format!("reading_{r:02}");
        let first = FIRST_SEED + r as u64 * SEEDS;
        let drawn = if r < FIRST_OF_LAMPS { drawn_small } else { drawn_with_lamps };
        cases.extend(found(&name, first, FOR_EACH_READING, &drawn, &|case| {
            output(case) != output_under(case, reading)
        }));
    }
    cases.extend(found("merged_over", FIRST_LARGE_SEED, MERGED_TOO_LARGE, &drawn_large, &|case| {
        let queries = Queries::of(&case.file);
        queries.is_ok_and(|queries| queries.merged() == Err(Refusal::MergedTooLarge))
    }));
    cases
}

/// The first cases, in order of seeds, for which `wanted` is true.
fn found(
    name: &str,
    first_seed: u64,
    count: usize,
    drawn: &dyn Fn(&mut Prng) -> Instrument,
    wanted: &dyn Fn(&Case) -> bool,
) -> Vec<Case> {
    let mut cases = Vec::new();
    for seed in first_seed.. {
        let mut prng = Prng::new(seed);
        let instrument = drawn(&mut prng);
        let asked = asked_states(&mut prng, &instrument);
        let case = Case::of(&format!("{name}_{}", cases.len()), write(&instrument), &asked);
        if wanted(&case) {
            cases.push(case);
        }
        if cases.len() == count {
            break;
        }
    }
    cases
}

fn drawn_small(prng: &mut Prng) -> Instrument {
    let shape = small_shape(prng);
    respelled_of(prng, &shape)
}

fn drawn_with_lamps(prng: &mut Prng) -> Instrument {
    let shape = small_shape(prng);
    lamps_of(prng, &shape)
}

fn small_shape(prng: &mut Prng) -> Shape {
    match prng.below(4) {
        0 => tiny(prng),
        3 => medium(prng),
        _ => small(prng),
    }
}

fn drawn_large(prng: &mut Prng) -> Instrument {
    let shape = large_different(prng);
    respelled_of(prng, &shape)
}
