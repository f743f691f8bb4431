//! Empty successor sets. Document 02, 2/14.

use second::answer::answer;
use second::damage::damaged;
use second::examples::stays::{
    chain_to_last, most_empty, one_stay, only_empty, zero_words, CHAIN_EG, CHAIN_EX, PAIR,
};
use second::fields::{fields, write, Place};
use second::generator;
use second::instrument::Instrument;
use second::number::write_number;
use second::prng::Prng;
use second::queries::Queries;
use second::reader::read;
use second::reading::Reading;
use second::refusal::Refusal;
use second::stays::{every_stay, Stay};

fn queries(file: &[u8]) -> Queries {
    Queries::of(file).unwrap_or_else(|refusal| panic!("refused {}", refusal.number()))
}

/// The lines that are printed for the question.
fn text(question: &str, file: &[u8]) -> String {
    answer(question, &Queries::of(file))
}

#[test]
fn the_chain_stays_at_its_end() {
    assert!(text("marks", &CHAIN_EX).ends_with("component 0 node 1 PASS 1 FAIL 6\n"));
    let listing = "verdict fails marks\ncomponent 0 classes 0 0 2\nmerged 2 of 3\n";
    assert_eq!(text("listing", &CHAIN_EG), listing);
    assert_eq!(text("stretch 0", &CHAIN_EG), "03000100010100020400\n");
}

#[test]
fn the_pair_stays_on_every_assignment() {
    assert_eq!(text("full", &PAIR), "3 0 3 0\n");
    assert_eq!(text("verdict", &PAIR), "holds marks\n");
    assert_eq!(queries(&PAIR).stretch(0), Ok(&PAIR[2..13]));
    assert_eq!(queries(&PAIR).stretch(1), Ok(&PAIR[13..21]));
}

#[test]
fn every_place_is_filled_with_its_own_state() {
    for (states, inputs) in [(1, 0), (2, 1), (5, 2), (32, 3), (64, 4)] {
        let table = &only_empty(states, inputs).tables[0];
        for state in 0..states {
            for assignment in 0..1 << inputs {
                let filled = table.successors(state, assignment, Reading::Document);
                assert_eq!(filled[..], [state], "{states} states, assignment {assignment}");
            }
        }
        let alone: Vec<Vec<usize>> = (0..states).map(|state| vec![state]).collect();
        assert_eq!(table.own_steps(Reading::Document), alone);
    }
}

#[test]
fn a_set_with_members_is_not_filled() {
    let table = &read(&PAIR).expect("a good file").instrument.tables[1];
    assert_eq!(table.successors(0, 0, Reading::Document)[..], [0, 1]);
    assert_eq!(table.sets.as_written()[0], [[0, 1]]);
}

#[test]
fn the_place_of_what_follows_moves() {
    for (states, longer) in [(32, 4), (64, 9)] {
        let [empty, out] =
            [Stay::Empty, Stay::SpelledOut].map(|stay| write(&chain_to_last(states, stay)));
        assert_eq!(out.len(), empty.len() + longer);
        let words = queries(&empty).full().expect("full words");
        // EG of the signal is node 1: the last state keeps it.
        let kept: Vec<usize> = (0..states).filter(|&s| words[s] & 2 != 0).collect();
        assert_eq!(kept, [states - 1]);
        assert_eq!(queries(&out).full(), Ok(words));
        let stay = write_number(1 << (states - 1));
        assert!(queries(&out).stretch(0).expect("a stretch").ends_with(&stay));
        assert!(queries(&empty).stretch(0).expect("a stretch").ends_with(&[0]));
    }
}

#[test]
fn one_stay_keeps_its_state_alone() {
    for (states, inputs, state, assignment) in [(4, 1, 1, 1), (12, 2, 2, 3), (64, 4, 63, 15)] {
        let file = write(&one_stay(states, inputs, state, assignment, Stay::Empty));
        let words = queries(&file).full().expect("full words");
        let kept: Vec<usize> = (0..states).filter(|&s| words[s] & 2 != 0).collect();
        assert_eq!(kept, [state]);
    }
}

#[test]
fn an_output_word_of_zero_stays_zero() {
    let words = queries(&write(&zero_words())).full().expect("full words");
    assert_eq!(words, [0, 0, 15, 15]);
}

#[test]
fn the_most_empty_sets_are_read() {
    let instrument = most_empty();
    assert_eq!(read(&write(&instrument)).expect("a good file").instrument, instrument);
}

/// What is written is kept: the file has the same bytes again, either way.
#[test]
fn both_ways_are_written_again_as_they_were() {
    for seed in 0..300 {
        let instrument = generator::instrument(&mut Prng::new(seed));
        for stay in [Stay::SpelledOut, Stay::Empty] {
            let respelled = every_stay(&instrument, stay);
            let file = write(&respelled);
            assert_eq!(write(&read(&file).expect("a good file").instrument), file);
        }
    }
}

/// The written sets of all components, each with its state, its assignment and the
/// number of assignments.
fn placed_sets(instrument: &Instrument) -> Vec<(usize, usize, usize, &Vec<usize>)> {
    let mut placed = Vec::new();
    for table in &instrument.tables {
        for (state, sets) in table.sets.as_written().iter().enumerate() {
            for (assignment, set) in sets.iter().enumerate() {
                placed.push((state, assignment, table.assignments(), set));
            }
        }
    }
    placed
}

#[test]
fn drawn_instruments_have_stays_of_both_kinds() {
    let (mut files, mut mixed, mut odd, mut wide) = (0, 0, 0, 0);
    for seed in 0..3000 {
        let instrument = generator::instrument(&mut Prng::new(seed));
        let sets = placed_sets(&instrument);
        let empty = |set: &(usize, usize, usize, &Vec<usize>)| set.3.is_empty();
        files += usize::from(sets.iter().any(empty));
        let spelled_out = sets.iter().any(|&(state, _, _, set)| *set == [state]);
        mixed += usize::from(spelled_out && sets.iter().any(empty));
        // The place is no state's number times the assignments.
        odd += usize::from(sets.iter().any(|set| empty(set) && set.1 > 0));
        let last = |set: &(usize, usize, usize, &Vec<usize>)| empty(set) && set.0 > 31;
        wide += usize::from(sets.iter().any(last));
    }
    assert!(files > 1000, "{files}");
    assert!(mixed > 500, "{mixed}");
    assert!(odd > 500, "{odd}");
    assert!(wide > 10, "{wide}");
}

/// Damaged files have a bit too high after empty sets and before them.
#[test]
fn bits_too_high_beside_empty_sets() {
    let (mut after, mut before) = (0, 0);
    for seed in 0..3000 {
        let mut prng = Prng::new(seed);
        let instrument = generator::instrument(&mut prng);
        let damaged = damaged(&mut prng, &instrument);
        if damaged.refusal != Some(Refusal::WordOrSet) {
            continue;
        }
        assert_eq!(read(&damaged.file).err(), Some(Refusal::WordOrSet));
        let Some(damage) = damaged_set(&instrument, &damaged.file) else {
            continue;
        };
        let empty = empty_sets(&instrument);
        after += usize::from(empty.iter().any(|&position| position < damage));
        before += usize::from(empty.iter().any(|&position| position > damage));
    }
    assert!(after > 10, "{after}");
    assert!(before > 10, "{before}");
}

/// The position of the successor set in which the file first differs.
fn damaged_set(instrument: &Instrument, file: &[u8]) -> Option<usize> {
    let good = write(instrument);
    let differs = (0..good.len()).find(|&i| file.get(i) != Some(&good[i]))?;
    let fields = fields(instrument);
    let mut end = 0;
    let position = fields.iter().position(|field| {
        end += write_number(field.value).len();
        differs < end
    })?;
    matches!(fields[position].place, Place::SuccessorSet(_)).then_some(position)
}

fn empty_sets(instrument: &Instrument) -> Vec<usize> {
    let fields = fields(instrument);
    let is_empty = |position: &usize| {
        let field = &fields[*position];
        matches!(field.place, Place::SuccessorSet(_)) && field.value == 0
    };
    (0..fields.len()).filter(is_empty).collect()
}
