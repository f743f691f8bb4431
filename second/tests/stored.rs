//! The stored cases are those that are made anew.

use std::path::Path;
use std::sync::OnceLock;

use second::answer::answer;
use second::limits::BYTES_READ;
use second::queries::Queries;
use second::reading::WRONG_READINGS;
use second::store::{cases, compare, output, output_under, Case};

/// The cases, made once for all tests.
fn made() -> &'static [Case] {
    static CASES: OnceLock<Vec<Case>> = OnceLock::new();
    CASES.get_or_init(cases)
}

#[test]
fn stored_cases_are_as_made() {
    let folder = Path::new(env!("CARGO_MANIFEST_DIR")).join("../crates/cases");
    assert_eq!(compare(&folder), Ok(made().len()));
}

#[test]
fn names_are_short_and_different() {
    let names: Vec<String> = made().iter().map(|case| case.name.clone()).collect();
    for (i, name) in names.iter().enumerate() {
        let allowed = |c: char| c.is_ascii_lowercase() || c.is_ascii_digit() || c == '_';
        assert!(name.len() <= 16 && name.chars().all(allowed), "{name}");
        assert!(!names[..i].contains(name), "{name}");
    }
}

#[test]
fn questions_are_short_enough() {
    for case in made() {
        let bytes: usize = case.questions.iter().map(|line| line.len() + 1).sum();
        assert!(bytes <= 16_384, "{}", case.name);
        assert!(case.questions.iter().all(|line| !line.contains('\n')), "{}", case.name);
    }
}

#[test]
fn output_of_the_chain() {
    let states = [[0, 0, 0, 0], [3, 0, 0, 0]];
    let mut case = Case::of("chain", second::examples::CHAIN.to_vec(), &states);
    case.questions.push("Full".to_string());
    let expected = "case chain
query full
1 1 0
query marks
component 0 node 0 PASS 3 FAIL 4
component 0 node 1 PASS 0 FAIL 7
query classes
component 0 classes 0 0 2
query merged
1 0
query listing
verdict fails marks
component 0 classes 0 0 2
merged 2 of 3
query verdict
fails marks
query lookup 0 0 0 0
false
query lookup 3 0 0 0
refused 9
query stretch 0
03000100010100020404
query stretch 1
refused 3
query stretch 4294967295
refused 3
query Full
usage: query full | marks | classes | merged | listing | lookup A B C D | verdict | stretch C < FILE
";
    assert_eq!(output(&case), expected);
}

#[test]
fn output_of_a_refused_file() {
    let case = Case::of("empty", vec![], &[[0, 0, 0, 0]]);
    let expected = "case empty
query full
refused 1
query marks
refused 1
query classes
refused 1
query merged
refused 1
query listing
refused 1
query verdict
refused 1
query lookup 0 0 0 0
refused 1
query stretch 0
refused 1
query stretch 4294967295
refused 1
";
    assert_eq!(output(&case), expected);
}

#[test]
fn the_first_49153_bytes_have_the_answers_of_the_file() {
    let mut longer = 0;
    for case in made().iter().filter(|case| case.file.len() > BYTES_READ) {
        assert_eq!(case.read().len(), BYTES_READ);
        let (first, whole) = (Queries::of(case.read()), Queries::of(&case.file));
        for line in &case.questions {
            assert_eq!(answer(line, &first), answer(line, &whole), "{} {line}", case.name);
        }
        longer += 1;
    }
    assert!(longer >= 3);
}

#[test]
fn every_wrong_reading_changes_some_stored_output() {
    let right: Vec<String> = made().iter().map(output).collect();
    for reading in WRONG_READINGS {
        let differs = |i: &usize| output_under(&made()[*i], reading) != right[*i];
        let differing = (0..right.len()).filter(differs).take(10).count();
        assert_eq!(differing, 10, "{reading:?}");
    }
}
