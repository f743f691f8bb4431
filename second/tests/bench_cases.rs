//! The bench cases of document 01, as printed there.

use second::answer::answer;
use second::combination;
use second::examples::{all_to_zero, chain_with, counters, longest, pair_from, wide, CHAIN, PAIR};
use second::fields::write;
use second::instrument::{Instrument, Node};
use second::limits;
use second::queries::Queries;
use second::reader::read;
use second::refusal::Refusal;

fn queries(file: &[u8]) -> Queries {
    Queries::of(file).unwrap_or_else(|refusal| panic!("refused {}", refusal.number()))
}

fn verdict(file: &[u8]) -> String {
    queries(file).verdict().expect("a verdict").text()
}

/// PASS and FAIL words of the only component for the root.
fn root_marks(queries: &Queries) -> (u64, u64) {
    let words = queries.marks();
    (words[words.len() - 2], words[words.len() - 1])
}

#[test]
fn chain_eg() {
    let queries = queries(&CHAIN);
    assert_eq!(root_marks(&queries), (0, 0b111));
    assert_eq!(queries.merged(), Ok(vec![1, 0]));
    assert_eq!(queries.full(), Ok(vec![1, 1, 0]));
    assert_eq!(queries.classes(), vec![0, 0, 2]);
    assert_eq!(write(&chain_with(&[Node::Signal(0), Node::Eg(0)])), CHAIN);
}

#[test]
fn chain_listing_byte_for_byte() {
    let text = "verdict fails marks\ncomponent 0 classes 0 0 2\nmerged 2 of 3\n";
    assert_eq!(queries(&CHAIN).listing().expect("a listing").as_bytes(), text.as_bytes());
}

#[test]
fn chain_ex() {
    let queries = queries(&write(&chain_with(&[Node::Signal(0), Node::Ex(0)])));
    assert_eq!(root_marks(&queries), (0b001, 0b110));
    assert_eq!(queries.classes(), vec![0, 1, 2]);
}

#[test]
fn chain_true_eu_not_p() {
    let nodes = [Node::True, Node::Signal(0), Node::Not(1), Node::Eu(0, 2)];
    let file = write(&chain_with(&nodes));
    let queries = queries(&file);
    assert_eq!(root_marks(&queries), (0b111, 0));
    assert_eq!(queries.classes(), vec![0, 0, 2]);
    assert_eq!(verdict(&file), "holds marks");
}

#[test]
fn chain_root_true() {
    let queries = queries(&write(&chain_with(&[Node::True])));
    assert_eq!(queries.classes(), vec![0, 0, 0]);
    assert_eq!(root_marks(&queries), (0b111, 0));
    assert_eq!(queries.merged(), Ok(vec![1]));
}

#[test]
fn pair() {
    assert_eq!(queries(&PAIR).full(), Ok(vec![3, 0, 1, 0]));
    assert_eq!(verdict(&PAIR), "holds merged");
    assert_eq!(verdict(&pair_from(0, 1)), "fails merged");
    assert_eq!(verdict(&pair_from(1, 0)), "fails marks");
    assert_eq!(queries(&PAIR).lookup([0, 0, 0, 0]), Ok(true));
    assert_eq!(queries(&PAIR).lookup([0, 1, 0, 0]), Ok(false));
}

#[test]
fn shortest_files() {
    assert_eq!(read(&[]).err(), Some(Refusal::FileEnds));
    assert_eq!(read(&[128, 0]).err(), Some(Refusal::NumberForm));
    assert_eq!(read(&[128]).err(), Some(Refusal::FileEnds));
    assert_eq!(read(&[0]).err(), Some(Refusal::CountOutsideRange));
}

#[test]
fn sixty_four_and_sixty_five_states() {
    assert!(read(&write(&all_to_zero(64))).is_ok());
    assert_eq!(read(&write(&all_to_zero(65))).err(), Some(Refusal::CountOutsideRange));
}

#[test]
fn marks_of_sixty_four_states() {
    let words = queries(&write(&wide::marked_all(64))).marks();
    // true and not true.
    assert_eq!(words[..4], [u64::MAX, 0, 0, u64::MAX]);
    // The counter's signal: high in state 0 only.
    assert_eq!(words[18..20], [1, u64::MAX - 1]);
    assert!(words[..18].iter().all(|&word| word == 0 || word == u64::MAX));
}

#[test]
fn a_stage_of_fifty_one_states() {
    let queries = queries(&write(&wide::stage()));
    // EX at the end: from state 49 while the lid is shut, from the end while it is not.
    let full = queries.full().expect("full words");
    let one_step_to_the_end: Vec<usize> = (0..102).filter(|&i| full[i] & 32 != 0).collect();
    assert_eq!(one_step_to_the_end, vec![49, 51 + 50]);
    // Some path reaches the end from everywhere, but a lid that stays open holds it up.
    assert!(full.iter().all(|word| word & 4 != 0));
    assert_eq!(queries.marks()[2 * 2], 1 << 50);
}

#[test]
fn the_guard_at_a_class_above_32() {
    let queries = queries(&write(&wide::guarded_pair()));
    assert_eq!(queries.bench.names[1][60..], [60, 61, 61, 63]);
    // EG is false in every merged state, and no node is left out of the words.
    let merged = queries.merged().expect("merged words");
    assert_eq!(merged.len(), 2 * 63);
    assert!(merged.iter().all(|word| word >> 8 & 1 == 0));
}

#[test]
fn every_state_of_a_long_way_is_apart() {
    let queries = queries(&write(&wide::chain_from_last()));
    assert_eq!(queries.bench.names[0], (0..64).collect::<Vec<usize>>());
}

#[test]
fn the_largest_words_are_printed() {
    let text = answer("marks", &Queries::of(&write(&wide::marked_all(64))));
    assert!(text.starts_with("component 0 node 0 PASS 18446744073709551615 FAIL 0\n"));
}

#[test]
fn sizes_that_combine_and_that_do_not() {
    for sizes in [&[32, 32, 4][..], &[64, 64]] {
        let words = queries(&write(&counters(sizes))).full().expect("full words");
        assert_eq!(words.len(), 4096);
    }
    for sizes in [[32, 32, 5], [64, 64, 2]] {
        let too_large = queries(&write(&counters(&sizes)));
        assert_eq!(too_large.full(), Err(Refusal::FullTooLarge));
    }
}

#[test]
fn longest_good_file() {
    let instrument = longest();
    let file = write(&instrument);
    assert_eq!(file.len(), limits::LONGEST_GOOD_FILE);
    assert_eq!(read(&file).expect("a good file").instrument, instrument);
}

#[test]
fn stretches_are_the_parts_of_the_file() {
    let queries = queries(&PAIR);
    assert_eq!(queries.stretch(0), Ok(&PAIR[2..13]));
    assert_eq!(queries.stretch(1), Ok(&PAIR[13..21]));
    assert_eq!(queries.stretch(2), Err(Refusal::CountOutsideRange));
    assert_eq!(queries.stretch(u32::MAX), Err(Refusal::CountOutsideRange));
}

#[test]
fn asked_states() {
    let queries = queries(&PAIR);
    assert_eq!(queries.lookup([2, 0, 0, 0]), Err(Refusal::StateNotInComponent));
    assert_eq!(queries.lookup([0, 2, 0, 0]), Err(Refusal::StateNotInComponent));
    assert_eq!(queries.lookup([0, 0, 1, 0]), Err(Refusal::StateNotInComponent));
    assert_eq!(queries.lookup([0, 0, 0, 1]), Err(Refusal::StateNotInComponent));
    assert_eq!(queries.lookup([u32::MAX, 0, 0, 0]), Err(Refusal::StateNotInComponent));
}

#[test]
fn too_many_merged_states() {
    let instrument = second::examples::merged_too_large();
    let queries = queries(&write(&instrument));
    assert_eq!(combination::size(&queries.bench.merged_tables), 5120);
    assert_eq!(queries.merged(), Err(Refusal::MergedTooLarge));
    assert_eq!(queries.lookup([0, 0, 0, 0]), Err(Refusal::MergedTooLarge));
    // An asked state is judged before the sizes.
    assert_eq!(queries.lookup([0, 0, 5, 0]), Err(Refusal::StateNotInComponent));
    assert_eq!(queries.verdict(), Err(Refusal::MergedTooLarge));
    assert_eq!(queries.listing(), Err(Refusal::MergedTooLarge));
    let without_starts = Instrument { starts: vec![], ..instrument };
    assert_eq!(verdict(&write(&without_starts)), "holds marks");
}

#[test]
fn marks_decide_above_the_limit() {
    let file = write(&second::examples::merged_too_large_but_marked());
    assert_eq!(verdict(&file), "holds marks");
    let listing = queries(&file).listing().expect("a listing");
    assert!(listing.ends_with("merged 5120 of 5120\n"));
}

#[test]
fn small_merged_combination_of_a_large_full_one() {
    let file = write(&second::examples::full_too_large_merged_small());
    let queries = queries(&file);
    assert_eq!(queries.full(), Err(Refusal::FullTooLarge));
    let listing = queries.listing().expect("a listing");
    assert!(listing.starts_with("verdict fails merged\n"));
    assert!(listing.ends_with("merged 6 of 16777216\n"));
}
