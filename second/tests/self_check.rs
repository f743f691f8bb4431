//! The self-check finds nothing under document 01 and finds every wrong reading.

use second::counts::Counts;
use second::examples::chain_with;
use second::generator;
use second::instrument::Node;
use second::prng::Prng;
use second::reading::{Reading, WRONG_READINGS};
use second::self_check::self_check;

#[test]
fn no_violation_and_everything_is_met() {
    let mut counts = Counts::default();
    let found = self_check(0, 3000, Reading::Document, &mut counts);
    assert!(found.is_none(), "{}", found.map_or(String::new(), |found| found.text()));
    for number in 1..=12 {
        assert!(counts.of(&format!("refusal {number:2}")) > 0, "refusal {number}");
    }
    for verdict in ["holds marks", "fails marks", "holds merged", "fails merged", "refused 12"] {
        assert!(counts.of(&format!("verdicts {verdict}")) > 0, "{verdict}");
    }
    for name in [
        "merges that are real",
        "full above 4,096 and merged not",
        "truths by lassos",
        "pairs of components never marked both ways",
        "files with all stays SpelledOut",
        "files with all stays Empty",
        "lookups of files with other stays",
        "stretches",
        "outputs that another component lists",
        "outputs neither listed nor named",
        "relations coarser than by whole output words",
        "lookups of files without unseen outputs",
        "lookups of files with other levels of unseen outputs",
    ] {
        assert!(counts.of(name) > 0, "{name}");
    }
}

#[test]
fn every_wrong_reading_is_found() {
    for reading in WRONG_READINGS {
        let found = self_check(0, 3000, reading, &mut Counts::default());
        assert!(found.is_some(), "{reading:?}");
    }
}

#[test]
fn the_chain_shows_that_the_guard_is_needed() {
    let chain = chain_with(&[Node::Signal(0), Node::Eg(0)]);
    let check = |reading| second::check::check(&chain, 0, reading, &mut Counts::default());
    assert_eq!(check(Reading::Document), Ok(()));
    let violation = "node 1 is false in [0], its merged bit is not";
    assert_eq!(check(Reading::NoGuard), Err(violation.to_string()));
    assert_eq!(check(Reading::GuardFromMergedMarks), Err(violation.to_string()));
}

#[test]
fn reduction_keeps_what_is_looked_for() {
    let instrument = generator::instrument(&mut Prng::new(5));
    let shows = |smaller: &second::instrument::Instrument| smaller.tables[0].states() > 1;
    let smallest = second::reduce::reduce(&instrument, &shows);
    assert_eq!(smallest.tables.len(), 1);
    assert_eq!(smallest.tables[0].states(), 2);
    assert_eq!(smallest.nodes.len(), 1);
    assert!(smallest.starts.is_empty());
}
