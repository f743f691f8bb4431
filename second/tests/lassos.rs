//! Lassos and truth by lassos on small graphs written by hand.

use second::combination::Combination;
use second::instrument::Node;
use second::lasso::{lassos, truth_by_lassos, Lasso};
use second::reading::Reading;
use second::truth::truth;

#[test]
fn every_lasso_is_listed() {
    // 0 goes to 1 and 2, 1 goes to 0 and 1, 2 stays.
    let found = lassos(&[vec![1, 2], vec![0, 1], vec![2]]);
    let lasso = |states: &[usize], back| Lasso { states: states.to_vec(), back };
    assert_eq!(found[0], vec![lasso(&[0, 1], 0), lasso(&[0, 1], 1), lasso(&[0, 2], 1)]);
    assert_eq!(found[1], vec![lasso(&[1, 0], 0), lasso(&[1, 0, 2], 2), lasso(&[1], 0)]);
    assert_eq!(found[2], vec![lasso(&[2], 0)]);
}

/// 0 goes to 1, 1 to 2 and back to 0, 2 stays; p in 0 and 1, q in 2.
fn combination() -> Combination {
    Combination {
        states: vec![vec![0], vec![1], vec![2]],
        high: vec![vec![true, false], vec![true, false], vec![false, true]],
        next: vec![vec![1], vec![0, 2], vec![2]],
    }
}

#[test]
fn truth_by_hand() {
    let nodes = [
        Node::Signal(0),
        Node::Signal(1),
        Node::Ex(1),
        Node::Eg(0),
        Node::Eu(0, 1),
        Node::Not(0),
        Node::Eu(5, 0),
        Node::Eg(4),
    ];
    let expected = vec![
        vec![true, true, false],
        vec![false, false, true],
        vec![false, true, true],
        vec![true, true, false],
        vec![true, true, true],
        vec![false, false, true],
        vec![true, true, false],
        vec![true, true, true],
    ];
    assert_eq!(truth_by_lassos(&combination(), &nodes), expected);
    assert_eq!(truth(&combination(), &nodes, Reading::Document), expected);
}
