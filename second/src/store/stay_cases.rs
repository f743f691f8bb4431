//! Files with empty successor sets, many beside the same file with the stay
//! spelled out. Document 02, 2/14.

use super::bench_cases::{case, good};
use super::Case;
use crate::examples::stays::{
    chain_to_last, four_only_empty, most_empty, one_stay, only_empty, zero_words, CHAIN_EG,
    CHAIN_EX, PAIR,
};
use crate::examples::{counters, CHAIN};
use crate::fields::write;
use crate::instrument::Instrument;
use crate::reader::read;
use crate::stays::{every_stay, Stay};

pub fn cases() -> Vec<Case> {
    let mut cases = small_cases();
    cases.extend(last_state_cases());
    cases.extend(place_cases());
    cases.extend(only_empty_cases());
    cases
}

/// The chain and the pair.
fn small_cases() -> Vec<Case> {
    let pair = read(&PAIR).expect("the pair is good").instrument;
    let mut from_bad = PAIR;
    from_bad[27] = 1;
    vec![
        case("stay_chain_ex", CHAIN_EX.to_vec()),
        case("stay_chain_eg", CHAIN_EG.to_vec()),
        case("stay_chain_1", chain_with_sets(&[2, 0, 4])),
        case("stay_chain_0", chain_with_sets(&[0, 4, 4])),
        case("stay_chain_all", chain_with_sets(&[0, 0, 0])),
        case("stay_pair", PAIR.to_vec()),
        good("stay_pair_out", &every_stay(&pair, Stay::SpelledOut)),
        good("stay_pair_empty", &every_stay(&pair, Stay::Empty)),
        case("stay_pair_1_0", from_bad.to_vec()),
        good("stay_word_0", &zero_words()),
    ]
}

/// The chain of document 01 with other sets of one byte each.
fn chain_with_sets(sets: &[u8; 3]) -> Vec<u8> {
    [&CHAIN[..9], sets, &CHAIN[12..]].concat()
}

/// The stay of the last of 32 and of 64 states takes one byte, or five and ten.
fn last_state_cases() -> Vec<Case> {
    let mut in_the_middle = counters(&[64]);
    in_the_middle.tables[0].sets.as_written_mut()[32] = vec![vec![]];
    vec![
        good("stay_32_empty", &chain_to_last(32, Stay::Empty)),
        good("stay_32_out", &chain_to_last(32, Stay::SpelledOut)),
        good("stay_33_empty", &chain_to_last(33, Stay::Empty)),
        good("stay_33_out", &chain_to_last(33, Stay::SpelledOut)),
        good("stay_64_empty", &chain_to_last(64, Stay::Empty)),
        good("stay_64_out", &chain_to_last(64, Stay::SpelledOut)),
        good("stay_64_state_32", &in_the_middle),
    ]
}

/// One stay in a ring: the states, the inputs, and the state and assignment of the
/// stay. Its place in the table is not its state's number.
const PLACES: [(usize, usize, usize, usize); 7] = [
    (4, 1, 1, 1),
    (8, 1, 3, 0),
    (12, 2, 2, 3),
    (7, 3, 6, 5),
    (32, 1, 31, 0),
    (64, 2, 5, 3),
    (64, 4, 63, 15),
];

fn place_cases() -> Vec<Case> {
    let mut cases = Vec::new();
    for (states, inputs, state, assignment) in PLACES {
        let name = |first: &str| format!("{first}_{states}_{state}_{assignment}");
        let of = |stay: Stay| one_stay(states, inputs, state, assignment, stay);
        cases.push(good(&name("stay"), &of(Stay::Empty)));
        cases.push(good(&name("out"), &of(Stay::SpelledOut)));
    }
    cases
}

/// No set has a member.
fn only_empty_cases() -> Vec<Case> {
    let spelled_out = |instrument: &Instrument| write(&every_stay(instrument, Stay::SpelledOut));
    vec![
        good("stay_only_1", &only_empty(1, 0)),
        good("stay_only_3", &only_empty(3, 2)),
        case("stay_only_3_out", spelled_out(&only_empty(3, 2))),
        good("stay_only_32", &only_empty(32, 1)),
        good("stay_only_64", &only_empty(64, 4)),
        case("stay_only_64_out", spelled_out(&only_empty(64, 4))),
        good("stay_only_four", &four_only_empty()),
        good("stay_only_most", &most_empty()),
    ]
}
