//! Which lines are questions, and what is printed for those that are not.

use second::answer::{answer, USAGE};
use second::queries::Queries;
use second::question::Question;

#[test]
fn words_alone() {
    assert_eq!(Question::of("full"), Some(Question::Full));
    assert_eq!(Question::of("marks"), Some(Question::Marks));
    assert_eq!(Question::of("classes"), Some(Question::Classes));
    assert_eq!(Question::of("merged"), Some(Question::Merged));
    assert_eq!(Question::of("listing"), Some(Question::Listing));
    assert_eq!(Question::of("verdict"), Some(Question::Verdict));
}

#[test]
fn words_with_numbers() {
    assert_eq!(Question::of("lookup 0 1 2 3"), Some(Question::Lookup([0, 1, 2, 3])));
    let largest = Question::Lookup([u32::MAX, 0, 0, u32::MAX]);
    assert_eq!(Question::of("lookup 4294967295 0 0 4294967295"), Some(largest));
    assert_eq!(Question::of("lookup 0000000002 00 0 0"), Some(Question::Lookup([2, 0, 0, 0])));
    assert_eq!(Question::of("stretch 0000000000"), Some(Question::Stretch(0)));
    assert_eq!(Question::of("stretch 4294967295"), Some(Question::Stretch(u32::MAX)));
}

#[test]
fn unknown_lines() {
    let words = ["", " ", "fulll", "ful", "Full", " full", "full ", "full\n", "full\t", "full 0"];
    let others = ["query full", "verdict verdict", "listing 0", "refusal", "to-text", "case full"];
    let lookups = ["lookup", "lookup 0 0 0", "lookup 0 0 0 0 0", "lookup 0 0 0 0 "];
    let spaces = ["lookup 0  0 0 0", " lookup 0 0 0 0", "lookup  0 0 0 0", "stretch  0"];
    let stretches = ["stretch", "stretch ", "stretch 0 0", "stretch 4294967296"];
    let numbers = ["lookup 0 0 0 x", "lookup 0 0 0 00000000000", "lookup 9999999999 0 0 0"];
    let signs = ["stretch -1", "stretch +1", "stretch 1x", "stretch 0x1", "stretch \u{661}"];
    let good = Queries::of(&second::examples::CHAIN);
    let refused = Queries::of(&[]);
    for lines in [&words[..], &others, &lookups, &spaces, &stretches, &numbers, &signs] {
        for line in lines {
            assert_eq!(Question::of(line), None, "{line:?}");
            assert_eq!(answer(line, &good), USAGE);
            assert_eq!(answer(line, &refused), USAGE);
        }
    }
}

#[test]
fn the_usage_line() {
    let words = "full | marks | classes | merged | listing | lookup A B C D | verdict | stretch C";
    assert_eq!(USAGE, format!("usage: query {words} < FILE\n"));
}
