//! Outputs that no other component lists as an input. Document 02, 3/14.

use second::answer::answer;
use second::combination;
use second::examples::lamps::{
    alone, four_in_a_ring, large, last_lit, middle, mutual, one_of_eight, shown_count,
    watched_lamp, with_formula, LISTED, UNREAD,
};
use second::fields::write;
use second::generator;
use second::instrument::{Instrument, Node};
use second::lamps::{compared_outputs, read_outputs, unseen_outputs};
use second::limits;
use second::prng::Prng;
use second::queries::Queries;
use second::reading::Reading;
use second::refusal::Refusal;

const LAMP: Node = Node::Signal(0);
const SIGNAL: Node = Node::Signal(1);

/// The class names of every component.
fn names(instrument: &Instrument) -> Vec<Vec<usize>> {
    names_under(instrument, Reading::Document)
}

fn names_under(instrument: &Instrument, reading: Reading) -> Vec<Vec<usize>> {
    let queries = Queries::under(&write(instrument), reading);
    queries.unwrap_or_else(|refusal| panic!("refused {}", refusal.number())).bench.names
}

fn listing(file: &[u8]) -> String {
    answer("listing", &Queries::of(file))
}

#[test]
fn an_unread_lamp_splits_no_class() {
    let listed = "verdict fails marks
component 0 classes 0 1
component 1 classes 0 1
merged 4 of 4
";
    let unread = listed.replace("component 0 classes 0 1", "component 0 classes 0 0");
    assert_eq!(listing(&UNREAD), unread.replace("4 of 4", "2 of 4"));
    // Listed and ignored is read.
    assert_eq!(listing(&LISTED), listed);
}

#[test]
fn whole_words_were_two_classes() {
    let unread = with_formula(&UNREAD, &[SIGNAL, Node::Eg(0)]);
    assert_eq!(write(&unread), UNREAD);
    assert_eq!(names_under(&unread, Reading::WholeOutputWords), [[0, 1], [0, 1]]);
    assert_eq!(names(&unread), [[0, 0], [0, 1]]);
}

#[test]
fn every_kind_of_root() {
    let formulas: [&[Node]; 2] = [&[SIGNAL, Node::Ex(0)], &[Node::True, SIGNAL, Node::Eu(0, 1)]];
    for nodes in formulas {
        assert_eq!(names(&with_formula(&UNREAD, nodes)), [[0, 0], [0, 1]]);
        assert_eq!(names(&with_formula(&LISTED, nodes)), [[0, 1], [0, 1]]);
    }
}

#[test]
fn a_named_lamp_keeps_its_level() {
    let named = with_formula(&UNREAD, &[LAMP, SIGNAL, Node::Or(0, 1), Node::Eg(2)]);
    assert_eq!(names(&named), [[0, 1], [0, 1]]);
    assert_eq!(names_under(&named, Reading::SignalNodeOfReadOnly)[0], [0, 0]);
    // Only the nodes under the root count.
    let aside = with_formula(&UNREAD, &[LAMP, SIGNAL, Node::Eg(1)]);
    assert_eq!(names(&aside), [[0, 0], [0, 1]]);
}

#[test]
fn one_state_is_marked_and_the_other_is_not() {
    let marked = with_formula(&UNREAD, &[LAMP, SIGNAL, Node::Eg(1), Node::Or(0, 2)]);
    let queries = Queries::of(&write(&marked)).expect("a good file");
    let root = &queries.bench.marks[0][3];
    assert_eq!((&root.pass[..], &root.fail[..]), (&[false, true][..], &[false, false][..]));
    assert_eq!(queries.bench.names[0], [0, 1]);
}

#[test]
fn a_later_and_an_earlier_reader() {
    for (lamp_first, blind) in
        [(true, Reading::ReadByEarlierOnly), (false, Reading::ReadByLaterOnly)]
    {
        let instrument = watched_lamp(lamp_first);
        let c = usize::from(!lamp_first);
        assert_eq!(names(&instrument)[c], [0, 1]);
        assert_eq!(names_under(&instrument, blind)[c], [0, 0]);
    }
    // Bit 0 is read by the first component, bit 2 by the last, bit 1 by none.
    assert_eq!(read_outputs(&middle().tables, 1), [true, false, true]);
    assert_eq!(names(&middle())[1], [0, 1, 0, 1, 4, 5, 4, 5]);
}

#[test]
fn one_read_bit_of_eight() {
    for j in 0..8 {
        let instrument = one_of_eight(j);
        let alone: Vec<bool> = (0..8).map(|bit| bit == j).collect();
        assert_eq!(read_outputs(&instrument.tables, 0), alone);
        assert_eq!(names(&instrument)[0], [0, 0, 2, 2], "bit {j}");
    }
}

#[test]
fn four_components() {
    for distance in 1..4 {
        let instrument = four_in_a_ring(distance);
        assert_eq!(names(&instrument), [[0, 1, 0, 1]; 4], "{distance} further");
        assert_eq!(names_under(&instrument, Reading::WholeOutputWords), [[0, 1, 2, 3]; 4]);
    }
}

#[test]
fn nothing_is_compared_in_a_file_of_one_component() {
    let instrument = alone(&[LAMP, Node::Ex(0)]);
    assert_eq!(compared_outputs(&instrument.tables, 0, Reading::Document), [false, false]);
    assert_eq!(names(&instrument), [[0, 0, 2, 3]]);
    // Output 0 is named, output 1 is not looked at; signal 2 is external, nobody's output.
    assert_eq!(unseen_outputs(&instrument, 0), [false, true]);
}

#[test]
fn a_partner_reads_one_lamp_and_has_another() {
    // Component 1 reads output 0 of component 0, or output 1 of it.
    assert_eq!(names(&mutual(false)), [[0, 1, 0, 1], [0, 1, 0, 1]]);
    assert_eq!(names(&mutual(true)), [[0, 0, 2, 2], [0, 1, 0, 1]]);
}

#[test]
fn too_large_before_and_answered_now() {
    let file = write(&large());
    let before = Queries::under(&file, Reading::WholeOutputWords).expect("a good file");
    assert_eq!(before.merged(), Err(Refusal::MergedTooLarge));
    assert_eq!(before.verdict(), Err(Refusal::MergedTooLarge));
    let now = Queries::of(&file).expect("a good file");
    assert_eq!(combination::size(&now.bench.merged_tables), 4);
    assert_eq!(answer("verdict", &Ok(now)), "holds merged\n");
}

#[test]
fn sixty_four_states() {
    let alternating: Vec<usize> = (0..64).map(|s| s % 2).collect();
    assert_eq!(names(&shown_count(None))[0], alternating);
    // The lamp of bit 0 says the same as the other output.
    assert_eq!(names(&shown_count(Some(0)))[0], alternating);
    assert_eq!(names(&shown_count(Some(5)))[0], (0..64).collect::<Vec<usize>>());
    assert_eq!(names(&last_lit(false))[0], [0; 64]);
    let mut last_apart = [0; 64];
    last_apart[63] = 63;
    assert_eq!(names(&last_lit(true))[0], last_apart);
}

/// The whole output word of the lowest state, lamps included.
#[test]
fn a_class_has_the_word_of_its_lowest_state() {
    let queries = Queries::of(&write(&one_of_eight(7))).expect("a good file");
    let table = &queries.bench.merged_tables[0];
    let only_last: Vec<bool> = (0..8).map(|j| j == 7).collect();
    assert_eq!(table.levels, [vec![false; 8], only_last]);
}

#[test]
fn drawn_instruments_have_lamps_of_every_kind() {
    let mut counts = [0; 6];
    for seed in 0..3000 {
        let instrument = generator::instrument(&mut Prng::new(seed));
        for (i, found) in kinds(&instrument).into_iter().enumerate() {
            counts[i] += usize::from(found);
        }
    }
    let least = [1000, 300, 200, 200, 200, 10];
    for (i, (count, least)) in counts.into_iter().zip(least).enumerate() {
        assert!(count > least, "kind {i}: {count}");
    }
}

/// Whether some component has an unseen output, an unread one that the formula names,
/// one that only earlier components list, one that only later ones list, one that is
/// listed and unused; eight outputs of which the last alone is read.
fn kinds(instrument: &Instrument) -> [bool; 6] {
    let tables = &instrument.tables;
    let named = instrument.named_signals();
    let mut kinds = [false; 6];
    for c in 0..tables.len() {
        let of = |reading: Reading| compared_outputs(tables, c, reading);
        let read = of(Reading::Document);
        let later = of(Reading::ReadByLaterOnly);
        let earlier = of(Reading::ReadByEarlierOnly);
        let used = of(Reading::UsedInsteadOfListed);
        kinds[0] |= unseen_outputs(instrument, c).contains(&true);
        for j in 0..read.len() {
            kinds[1] |= !read[j] && named.contains(&tables[c].outputs[j]);
            kinds[2] |= earlier[j] && !later[j];
            kinds[3] |= later[j] && !earlier[j];
            kinds[4] |= read[j] && !used[j];
        }
        let last = limits::OUTPUTS - 1;
        kinds[5] |= read.iter().position(|&read| read) == Some(last);
    }
    kinds
}
