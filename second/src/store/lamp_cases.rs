//! Files with outputs that no other component lists as an input. Document 02, 3/14.

use super::bench_cases::{case, good};
use super::random_cases::{asked_states, Draw};
use super::Case;
use crate::examples::lamps::{
    alone, four_in_a_ring, large, last_lit, middle, mutual, one_of_eight, shown_count,
    watched_lamp, with_formula, LISTED, UNREAD,
};
use crate::fields::write;
use crate::generator::{lamps_of, large_alike, large_listed, medium, small, tiny, wide};
use crate::instrument::Node;
use crate::prng::Prng;

/// The first seed of the drawn ones, away from other seeds.
const FIRST_SEED: u64 = 8_000_000_000;

pub fn cases() -> Vec<Case> {
    let mut cases = formula_cases();
    cases.extend(reader_cases());
    cases.extend(size_cases());
    cases.extend(drawn_cases());
    cases
}

/// The unread lamp, and the listed one, under several formulas.
fn formula_cases() -> Vec<Case> {
    let [lamp, signal] = [Node::Signal(0), Node::Signal(1)];
    let formulas: [(&str, &[Node]); 8] = [
        ("ex", &[signal, Node::Ex(0)]),
        ("eu", &[Node::True, signal, Node::Eu(0, 1)]),
        ("ex_eg", &[signal, Node::Ex(0), Node::Not(1), Node::Eg(2)]),
        // Named under the root: a signal node keeps the lamp's level.
        ("named", &[lamp, signal, Node::Or(0, 1), Node::Eg(2)]),
        ("named_eu", &[lamp, signal, Node::Eu(0, 1)]),
        // Named, but not under the root.
        ("named_aside", &[lamp, signal, Node::Eg(1)]),
        // The lit state is PASS, the other has no mark.
        ("pass", &[lamp, signal, Node::Eg(1), Node::Or(0, 2)]),
        ("fail", &[lamp, signal, Node::Eg(1), Node::Not(0), Node::Or(2, 3), Node::Not(4)]),
    ];
    let mut cases =
        vec![case("lamp_unread", UNREAD.to_vec()), case("lamp_listed", LISTED.to_vec())];
    for (name, nodes) in formulas {
        cases.push(good(&format!("lamp_{name}"), &with_formula(&UNREAD, nodes)));
    }
    for (name, nodes) in &formulas[..3] {
        cases.push(good(&format!("lamp_{name}_in"), &with_formula(&LISTED, nodes)));
    }
    cases
}

/// Who reads which output, and which bit of the word it is.
fn reader_cases() -> Vec<Case> {
    let mut cases = vec![
        good("lamp_later", &watched_lamp(true)),
        good("lamp_earlier", &watched_lamp(false)),
        good("lamp_middle", &middle()),
        good("lamp_mutual", &mutual(false)),
        good("lamp_partner", &mutual(true)),
        good("lamp_alone_eg", &alone(&[Node::Signal(0), Node::Eg(0)])),
        good("lamp_alone_ex", &alone(&[Node::Signal(0), Node::Ex(0)])),
        good(
            "lamp_alone_both",
            &alone(&[Node::Signal(0), Node::Ex(0), Node::Signal(1), Node::Or(1, 2)]),
        ),
    ];
    for j in 0..8 {
        cases.push(good(&format!("lamp_bit_{j}"), &one_of_eight(j)));
    }
    for distance in 1..4 {
        cases.push(good(&format!("lamp_ring_{distance}"), &four_in_a_ring(distance)));
    }
    cases
}

/// Many states.
fn size_cases() -> Vec<Case> {
    let mut fails = large();
    fails.starts.push(vec![63, 1, 63, 0]);
    vec![
        good("lamp_large", &large()),
        good("lamp_large_fails", &fails),
        good("lamp_64_count", &shown_count(None)),
        good("lamp_64_count_0", &shown_count(Some(0))),
        good("lamp_64_count_5", &shown_count(Some(5))),
        good("lamp_64_unread", &last_lit(false)),
        good("lamp_64_read", &last_lit(true)),
    ]
}

/// Random instruments with further lamps.
fn drawn_cases() -> Vec<Case> {
    let shapes: [(Draw, usize); 6] =
        [(tiny, 10), (small, 24), (medium, 10), (large_alike, 2), (large_listed, 2), (wide, 8)];
    let mut cases = Vec::new();
    for shape in shapes.into_iter().flat_map(|(shape, count)| vec![shape; count]) {
        let mut prng = Prng::new(FIRST_SEED + cases.len() as u64);
        let shape = shape(&mut prng);
        let instrument = lamps_of(&mut prng, &shape);
        let asked = asked_states(&mut prng, &instrument);
        cases.push(Case::of(&format!("lamp_drawn_{:02}", cases.len()), write(&instrument), &asked));
    }
    cases
}
