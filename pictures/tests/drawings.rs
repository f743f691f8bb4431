//! Pictures of the second checker's examples, of random instruments and of
//! instruments with as many states as there can be.

mod common;

use std::fs;
use std::path::Path;

use common::{answers, check_drawings};
use pictures::component::Component;
use pictures::graph::Graph;
use second::fields::write;
use second::generator;
use second::instrument::{Instrument, Node, Table, WrittenSets};
use second::notation::from_text;
use second::prng::Prng;
use second::stays::{every_stay, Stay};

/// The files of all texts in second/examples.
fn examples() -> Vec<Vec<u8>> {
    let folder = Path::new(env!("CARGO_MANIFEST_DIR")).join("../second/examples");
    let mut files = Vec::new();
    for entry in fs::read_dir(folder).expect("the folder of examples") {
        let text = fs::read_to_string(entry.expect("an example").path()).expect("a text");
        files.push(write(&from_text(&text).expect("a good text")));
    }
    files
}

/// A component of so many states with every successor set of the given size, and two
/// of one state that read its outputs.
fn full_size(
    states: usize,
    inputs: usize,
    successors: usize,
    different_outputs: usize,
) -> Instrument {
    let mut prng = Prng::new(5);
    let outputs: Vec<usize> = (0..8).collect();
    let level = |s: usize, j: usize| ((s % different_outputs) >> j) & 1 == 1;
    let mut sets = Vec::new();
    for _ in 0..states {
        let mut of_state = Vec::new();
        for _ in 0..1 << inputs {
            let mut set: Vec<usize> = (0..successors).map(|_| prng.below(states)).collect();
            set.sort_unstable();
            set.dedup();
            of_state.push(set);
        }
        sets.push(of_state);
    }
    let table = Table {
        inputs: (8..8 + inputs).collect(),
        levels: (0..states).map(|s| outputs.iter().map(|&j| level(s, j)).collect()).collect(),
        outputs,
        sets: WrittenSets::new(sets),
    };
    let nodes = vec![Node::Signal(0), Node::Ex(0), Node::Eg(1)];
    let reader = |inputs: Vec<usize>| Table {
        sets: WrittenSets::new(vec![vec![vec![0]; 1 << inputs.len()]]),
        inputs,
        outputs: vec![],
        levels: vec![vec![]],
    };
    let tables = vec![table, reader((0..4).collect()), reader((4..8).collect())];
    Instrument { signals: 12, tables, nodes, starts: vec![vec![3, 0, 0]] }
}

/// Boxes, labels and names in the drawings of steps do not overlap.
fn check_apart(file: &[u8]) {
    let instrument = second::reader::read(file).expect("a good file").instrument;
    for component in Component::all(&instrument, &answers(file)).expect("fitting answers") {
        for graph in [Graph::of_states(&component), Graph::of_classes(&component)] {
            if !graph.is_readable() {
                continue;
            }
            let pieces = graph.sketch().pieces;
            for (i, piece) in pieces.iter().enumerate() {
                assert!(pieces[..i].iter().all(|other| !other.overlaps(piece)));
            }
        }
    }
}

#[test]
fn every_example() {
    let files = examples();
    assert!(!files.is_empty());
    for file in files {
        check_drawings(&file);
        check_apart(&file);
    }
}

#[test]
fn random_instruments() {
    for seed in 0..150 {
        let file = write(&generator::instrument(&mut Prng::new(seed)));
        check_drawings(&file);
        check_apart(&file);
    }
}

/// An empty set is drawn as the step to the state itself.
#[test]
fn both_ways_to_write_a_stay_are_drawn_alike() {
    let mut different = 0;
    for seed in 0..150 {
        let instrument = generator::instrument(&mut Prng::new(seed));
        let files =
            [Stay::SpelledOut, Stay::Empty].map(|stay| write(&every_stay(&instrument, stay)));
        different += usize::from(files[0] != files[1]);
        let drawn = |file: &[u8]| pictures::command::drawings(file, &answers(file));
        assert!(drawn(&files[0]).expect("drawings") == drawn(&files[1]).expect("drawings"));
    }
    assert!(different > 50, "{different}");
}

#[test]
fn thirty_two_and_sixty_four_states() {
    for states in [32, 33, 51, 64] {
        for (inputs, successors, different_outputs) in
            [(0, 1, 2), (0, 1, states), (1, 1, 4), (2, 1, 32), (4, 12, 4), (4, 40, states)]
        {
            let file = write(&full_size(states, inputs, successors, different_outputs));
            check_drawings(&file);
            check_apart(&file);
        }
    }
}

/// The classes of 64 states that are all apart have fills that look different.
#[test]
fn sixty_four_fills() {
    let looks: Vec<String> = (0..64)
        .map(|i| {
            let fill = pictures::palette::Fill(i);
            let pattern = fill.definition("page").replace(&format!("page-fill-{i}"), "");
            if pattern.is_empty() {
                fill.value("page")
            } else {
                pattern
            }
        })
        .collect();
    for (i, look) in looks.iter().enumerate() {
        assert!(!looks[..i].contains(look), "fill {i}");
    }
}

/// A drawing of 64 states fits on a page: the ring's boxes show their number alone.
#[test]
fn a_ring_of_sixty_four_states_is_not_too_large() {
    for file in [second::examples::counters(&[64]), full_size(64, 0, 1, 64)] {
        let file = write(&file);
        let instrument = second::reader::read(&file).expect("a good file").instrument;
        let components = Component::all(&instrument, &answers(&file)).expect("fitting answers");
        let graph = Graph::of_states(&components[0]);
        assert!(graph.is_readable());
        let bounds = graph.sketch().bounds;
        assert!(bounds.width() < 1500.0 && bounds.height() < 1500.0, "{bounds:?}");
    }
}

#[test]
fn the_stored_picture_is_the_one_that_is_drawn() {
    let file = &second::examples::CHAIN;
    let files = pictures::command::drawings(file, &answers(file)).expect("drawings");
    let stored = Path::new(env!("CARGO_MANIFEST_DIR")).join("example/component-0.svg");
    assert!(fs::read_to_string(stored).expect("the stored picture") == files[0].1);
}

#[test]
fn marks_that_do_not_fit_are_an_error() {
    let file = &second::examples::CHAIN;
    let mut other = answers(file);
    other.marks[0].pop();
    assert!(pictures::command::drawings(file, &other).is_err());
    let mut other = answers(file);
    other.classes[0] = vec![0, 0];
    assert!(pictures::command::drawings(file, &other).is_err());
    other.classes[0] = vec![0, 0, 1];
    assert!(pictures::command::drawings(file, &other).is_err());
}
