//! The bench cases of document 01 and cases at its limits.

use super::random_cases::asked_states;
use super::Case;
use crate::examples::{self, all_to_zero, chain_with, counters, pair_from, wide};
use crate::fields::write;
use crate::instrument::{Instrument, Node};
use crate::prng::Prng;
use crate::reader::read;

pub fn cases() -> Vec<Case> {
    let mut cases = document_cases();
    cases.extend(limit_cases());
    cases.extend(wide_cases());
    cases.extend(trailing_cases());
    cases.push(questions_case());
    cases
}

/// A case whose asked states are drawn with the seed where the file is good.
pub fn case(name: &str, file: Vec<u8>) -> Case {
    let asked = match read(&file) {
        Ok(accepted) => asked_states(&mut Prng::new(file.len() as u64), &accepted.instrument),
        Err(_) => vec![[0, 0, 0, 0], [1, 0, 2, 0]],
    };
    Case::of(name, file, &asked)
}

pub fn good(name: &str, instrument: &Instrument) -> Case {
    case(name, write(instrument))
}

fn document_cases() -> Vec<Case> {
    let p = Node::Signal(0);
    vec![
        case("chain_eg", examples::CHAIN.to_vec()),
        good("chain_ex", &chain_with(&[p, Node::Ex(0)])),
        good("chain_eu", &chain_with(&[Node::True, p, Node::Not(1), Node::Eu(0, 2)])),
        good("chain_true", &chain_with(&[Node::True])),
        case("pair_0_0", pair_from(0, 0)),
        case("pair_0_1", pair_from(0, 1)),
        case("pair_1_0", pair_from(1, 0)),
        case("pair_1_1", pair_from(1, 1)),
        case("empty", vec![]),
        case("bytes_128_0", vec![128, 0]),
        case("byte_128", vec![128]),
        case("byte_0", vec![0]),
    ]
}

fn limit_cases() -> Vec<Case> {
    let without_starts = Instrument { starts: vec![], ..examples::merged_too_large() };
    let signal_only = Instrument { nodes: vec![Node::Signal(0)], ..counters(&[64]) };
    vec![
        good("states_64", &all_to_zero(64)),
        good("states_65", &all_to_zero(65)),
        good("counter_64", &counters(&[64])),
        good("counter_signal", &signal_only),
        good("all_64_successor", &with_full_set(64)),
        good("sizes_64_64", &counters(&[64, 64])),
        good("sizes_64_64_2", &counters(&[64, 64, 2])),
        good("sizes_32_32_4", &counters(&[32, 32, 4])),
        good("sizes_32_32_5", &examples::merged_too_large()),
        good("no_starts_5120", &without_starts),
        good("marked_5120", &examples::merged_too_large_but_marked()),
        good("small_merged", &examples::full_too_large_merged_small()),
        good("longest", &examples::longest()),
    ]
}

/// Cases in which states above 31, and the last of 64, matter.
fn wide_cases() -> Vec<Case> {
    vec![
        good("all_to_63", &wide::all_to_last(64)),
        good("counter_33", &counters(&[33])),
        good("all_33_successor", &with_full_set(33)),
        good("all_63_successor", &with_full_set(63)),
        good("marks_all_64", &wide::marked_all(64)),
        good("stage_51", &wide::stage()),
        good("gated_64", &wide::gated()),
        good("chain_from_63", &wide::chain_from_last()),
        good("guard_61", &wide::guarded_pair()),
    ]
}

/// A counter that goes from state 7 to every state.
fn with_full_set(states: usize) -> Instrument {
    let mut instrument = counters(&[states]);
    instrument.tables[0].sets.as_written_mut()[7] = vec![(0..states).collect()];
    instrument
}

/// Files with trailing bytes around 49,153 bytes, and one with an earlier fault.
fn trailing_cases() -> Vec<Case> {
    let longer = |file: &[u8], length: usize| {
        let mut longer = file.to_vec();
        longer.resize(length, 0);
        longer
    };
    let mut fault_at_10 = examples::CHAIN.to_vec();
    fault_at_10[10] = 8;
    let longest = write(&examples::longest());
    vec![
        case("chain_49153", longer(&examples::CHAIN, 49_153)),
        case("chain_49154", longer(&examples::CHAIN, 49_154)),
        case("pair_52000", longer(&examples::PAIR, 52_000)),
        case("longest_41652", longer(&longest, longest.len() + 1)),
        case("longest_49200", longer(&longest, 49_200)),
        case("fault_6_50000", longer(&fault_at_10, 50_000)),
    ]
}

/// The chain, asked also what is no question, and numbers with zeros in front.
fn questions_case() -> Case {
    let mut case = case("questions", examples::CHAIN.to_vec());
    let lines = [
        "",
        "fulll",
        "Full",
        " full",
        "full ",
        "full 0",
        "lookup",
        "lookup 0 0 0",
        "lookup 0 0 0 0 0",
        "lookup 0  0 0 0",
        "lookup 0 0 0 x",
        "lookup 0 0 0 4294967296",
        "lookup 0 0 0 00000000000",
        "lookup 0000000002 0 0 0",
        "stretch",
        "stretch 0 0",
        "stretch -1",
        "stretch 4294967295",
        "stretch 4294967296",
        "verdict verdict",
        "listing 0",
        "query full",
    ];
    case.questions.extend(lines.map(String::from));
    case.questions.push("full".repeat(75));
    case
}
