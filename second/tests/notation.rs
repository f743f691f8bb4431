//! The text notation.

use second::examples::{lamps, stays, CHAIN, PAIR};
use second::fields::write;
use second::notation::{from_text, to_text};

const CHAIN_TEXT: &str = include_str!("../examples/chain.txt");
const PAIR_TEXT: &str = include_str!("../examples/pair.txt");
const STAYS_TEXT: &str = include_str!("../examples/stays.txt");
const LAMPS_TEXT: &str = include_str!("../examples/lamps.txt");

#[test]
fn examples_are_the_files_of_document_01() {
    assert_eq!(write(&from_text(CHAIN_TEXT).expect("the chain")), CHAIN);
    assert_eq!(write(&from_text(PAIR_TEXT).expect("the pair")), PAIR);
}

#[test]
fn the_unread_lamp() {
    assert_eq!(write(&from_text(LAMPS_TEXT).expect("the example")), lamps::UNREAD);
}

#[test]
fn an_empty_set_and_a_spelled_out_stay_are_two_texts() {
    let instrument = from_text(STAYS_TEXT).expect("the example");
    assert_eq!(write(&instrument), stays::PAIR);
    let of_first = "  state 0 drives s0\n    on 0 stays\n    on 1 goes 0\n";
    let of_second = "  state 1 drives\n    on 0 goes 1\n    on 1 stays\n";
    assert!(to_text(&instrument).contains(&(of_first.to_string() + of_second)));
}

#[test]
fn text_is_stable() {
    for text in [CHAIN_TEXT, PAIR_TEXT, STAYS_TEXT, LAMPS_TEXT] {
        let instrument = from_text(text).expect("an example");
        let written = to_text(&instrument);
        let again = from_text(&written).expect("the written text");
        assert_eq!(again, instrument);
        assert_eq!(to_text(&again), written);
    }
}

/// The message for the chain's text with one piece replaced.
fn message(piece: &str, replacement: &str) -> String {
    assert!(CHAIN_TEXT.contains(piece), "{piece}");
    let text = CHAIN_TEXT.replacen(piece, replacement, 1);
    from_text(&text).expect_err("an error").to_string()
}

/// A piece of the chain's text, its replacement, and the message.
const ERRORS: [(&str, &str, &str); 27] = [
    ("signals p\n", "\n", "line 3: the first line is: signals NAMES"),
    ("signals p", "signals p p", "line 2: signal p is named twice"),
    ("signals p", "signals a b c d e f g h i j k l m", "line 2: there are more than 12 signals"),
    (
        "signals p",
        "signals p-q",
        "line 2: signal name p-q has other characters than letters, digits and _",
    ),
    ("component\n", "component a b\n", "line 3: component takes at most one name"),
    ("  inputs\n", "", "line 4: a line inputs is expected here"),
    ("  inputs\n", "  inputs p\n", "line 3: output number 0 is also an input"),
    ("outputs p", "outputs q", "line 5: there is no signal q here"),
    ("state 1 drives p", "state 5 drives p", "line 8: state 5 is state number 1"),
    ("state 1 drives p", "state 1", "line 8: a state line is: state NAME drives SIGNALS"),
    ("state 1 drives p", "state 1 drives p p", "line 8: signal p is listed twice"),
    ("    goes 1\n", "    goes\n", "line 7: goes takes a state at least; the empty set is: stays"),
    ("    goes 1\n", "    stays 0\n", "line 7: stays takes no states"),
    ("    goes 1\n", "    on 0 stays\n", "line 7: after on there are 0 digits, each 0 or 1"),
    (
        "    goes 1\n",
        "    stays\n    goes 1\n",
        "line 8: the successors on an assignment are given twice",
    ),
    (
        "    goes 1\n",
        "    on 1\n",
        "line 7: a successor line is: [on DIGITS] goes STATES, or: [on DIGITS] stays",
    ),
    ("    goes 1\n", "    goes 2 1\n", "line 7: state 1 is not in ascending order"),
    ("    goes 1\n", "    goes 7\n", "line 7: there is no state 7 here"),
    ("    goes 1\n", "", "line 6: the state has no successors on some assignment"),
    (
        "    goes 1\n",
        "    goes 1\n    goes 1\n",
        "line 8: the successors on an assignment are given twice",
    ),
    ("    goes 1\n", "    on 1 goes 1\n", "line 7: after on there are 0 digits, each 0 or 1"),
    ("node 1 EG 0", "node 1 EG 1", "line 13: there is no node 1 here"),
    ("node 1 EG 0", "node 1 AG 0", "line 13: AG is not a kind of node"),
    ("node 1 EG 0", "node 1 EU 0", "line 13: EU has 2 operands"),
    ("start 0", "start 3", "line 14: there is no state 3 here"),
    ("start 0", "start 0 0", "line 14: a start has 1 states"),
    ("start 0", "begin 0", "line 14: begin is not expected here"),
];

#[test]
fn errors_name_their_line() {
    for (piece, replacement, expected) in ERRORS {
        assert_eq!(message(piece, replacement), expected);
    }
}

#[test]
fn missing_parts() {
    let message = |text: &str| from_text(text).expect_err("an error").to_string();
    assert_eq!(message(""), "line 1: the first line is: signals NAMES");
    assert_eq!(message("signals p\n"), "line 2: a line component is expected here");
    let without_nodes = "signals\ncomponent\ninputs\noutputs\nstate 0 drives\ngoes 0\n";
    assert_eq!(message(without_nodes), "line 7: a line node is expected here");
    let undriven = without_nodes.replace("signals", "signals a") + "node 0 signal a\n";
    assert_eq!(message(&undriven), "line 7: no component drives signal a");
    let twice = PAIR_TEXT.replace("outputs q", "outputs p q");
    assert_eq!(message(&twice), "line 12: output number 0 is driven by an earlier component");
}
