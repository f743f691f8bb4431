//! Refused files with long numbers: their forms, at every kind of place, and
//! where two faults meet. Document 01, "The instrument file" and "Refused".

use super::refusal_cases::{changed, cut, Row};
use crate::damage::with_bytes;
use crate::examples::{counters, stays, CHAIN, PAIR};
use crate::fields::{fields, write, Field, Place};
use crate::instrument::{Instrument, Node};
use crate::number::write_number;
use crate::reader::read;

pub fn rows() -> Vec<Row> {
    let mut rows = form_rows();
    rows.extend(width_rows());
    rows.extend(place_rows());
    rows.extend(pair_rows());
    rows
}

/// Ten bytes: nine continued ones with the value 2, and the tenth.
fn tenth(last: u8) -> [u8; 10] {
    [130, 128, 128, 128, 128, 128, 128, 128, 128, last]
}

/// The same with a byte after it.
fn tenth_and_one(last: u8) -> Vec<u8> {
    [&tenth(last)[..], &[1]].concat()
}

/// Long numbers as the chain's first successor set.
fn form_rows() -> Vec<Row> {
    let eight = [130, 128, 128, 128, 128, 128, 128, 128];
    vec![
        cut("r01_five_bytes", &CHAIN, 9, &[130, 128, 128, 128, 128], 1),
        cut("r01_nine_bytes", &CHAIN, 9, &tenth(0)[..9], 1),
        changed("r02_nine_bytes", &CHAIN, 9, &[&eight[..], &[0]].concat(), 2),
        changed("r02_tenth_0", &CHAIN, 9, &tenth(0), 2),
        cut("r02_tenth_0_end", &CHAIN, 9, &tenth(0), 2),
        changed("r02_tenth_2", &CHAIN, 9, &tenth(2), 2),
        cut("r02_tenth_2_end", &CHAIN, 9, &tenth(2), 2),
        cut("r02_tenth_2_one", &CHAIN, 9, &tenth_and_one(2), 2),
        changed("r02_tenth_127", &CHAIN, 9, &tenth(127), 2),
        cut("r02_tenth_128", &CHAIN, 9, &tenth(128), 2),
        cut("r02_tenth_129", &CHAIN, 9, &tenth_and_one(129), 2),
        cut("r02_tenth_130", &CHAIN, 9, &tenth_and_one(130), 2),
        changed("r02_eleven_bytes", &CHAIN, 9, &tenth_and_one(128), 2),
        cut("r06_fifth_1", &CHAIN, 9, &[128, 128, 128, 128, 1], 6),
        changed("r06_fifth_15", &CHAIN, 9, &[255, 255, 255, 255, 15], 6),
        cut("r06_fifth_15_end", &CHAIN, 9, &[255, 255, 255, 255, 15], 6),
        changed("r06_fifth_16", &CHAIN, 9, &[130, 128, 128, 128, 16], 6),
        cut("r06_fifth_16_end", &CHAIN, 9, &[130, 128, 128, 128, 16], 6),
        changed("r06_six_bytes", &CHAIN, 9, &[130, 128, 128, 128, 128, 1], 6),
        changed("r06_tenth_1", &CHAIN, 9, &tenth(1), 6),
        cut("r06_tenth_1_end", &CHAIN, 9, &tenth(1), 6),
    ]
}

/// Successor sets with the lowest bit too high, and with all bits; also where all
/// other sets are empty.
fn width_rows() -> Vec<Row> {
    let row = |name: &str, instrument: &Instrument, set: u64| {
        let states = instrument.tables[0].states();
        let fields = fields(instrument);
        let position = fields.iter().position(|field| field.place == Place::SuccessorSet(0));
        let position = position.expect("a table has a successor set");
        let file = with_bytes(&fields, position + states / 2, &write_number(set)).0;
        Row { name: name.to_string(), file, number: 6 }
    };
    let with_set = |name: &str, states, set| row(name, &counters(&[states]), set);
    let beside_empty = |name: &str, states, set| row(name, &stays::only_empty(states, 0), set);
    vec![
        with_set("r06_31_bit_31", 31, 1 << 31),
        with_set("r06_32_bit_32", 32, 1 << 32),
        with_set("r06_33_bit_33", 33, 1 << 33),
        with_set("r06_32_and_good", 32, (1 << 32) + 1),
        with_set("r06_51_bit_51", 51, 1 << 51),
        with_set("r06_62_bit_62", 62, 1 << 62),
        with_set("r06_63_bit_63", 63, 1 << 63),
        with_set("r06_63_all", 63, u64::MAX),
        beside_empty("r06_31_empty", 31, 1 << 31),
        beside_empty("r06_32_empty", 32, 1 << 32),
        beside_empty("r06_63_empty", 63, 1 << 63),
    ]
}

/// Kinds of places, with a name and the number for a value too large.
const PLACES: [(&str, usize); 16] = [
    ("comps", 3),
    ("signals", 3),
    ("states", 3),
    ("inputs", 3),
    ("input", 4),
    ("outputs", 3),
    ("output", 4),
    ("word", 6),
    ("set", 6),
    ("nodes", 3),
    ("kind", 7),
    ("signal", 8),
    ("first", 7),
    ("second", 7),
    ("starts", 3),
    ("start", 9),
];

/// The pair with one more node, whose root has two operands.
fn pair_with_until() -> Instrument {
    let mut instrument = read(&PAIR).expect("the pair is good").instrument;
    instrument.nodes.push(Node::Eu(1, 0));
    instrument
}

/// Where the last number of that kind stands.
fn position(fields: &[Field], name: &str) -> usize {
    let last = |wanted: &dyn Fn(Place) -> bool| fields.iter().rposition(|f| wanted(f.place));
    let operand = last(&|place| matches!(place, Place::NodeOperand(_)));
    let position = match name {
        "comps" => last(&|place| place == Place::ComponentCount),
        "signals" => last(&|place| place == Place::SignalCount),
        "states" => last(&|place| place == Place::StateCount),
        "inputs" => last(&|place| place == Place::InputCount),
        "input" => last(&|place| matches!(place, Place::Input(_, _))),
        "outputs" => last(&|place| place == Place::OutputCount),
        "output" => last(&|place| matches!(place, Place::Output(_, _))),
        "word" => last(&|place| matches!(place, Place::OutputWord(_))),
        "set" => last(&|place| matches!(place, Place::SuccessorSet(_))),
        "nodes" => last(&|place| place == Place::NodeCount),
        "kind" => last(&|place| place == Place::Kind),
        "signal" => last(&|place| place == Place::SignalOperand),
        "first" => operand.map(|second| second - 1),
        "second" => operand,
        "starts" => last(&|place| place == Place::StartCount),
        _ => last(&|place| matches!(place, Place::StartState(_))),
    };
    position.expect("the pair has every kind of number")
}

/// At each kind of place a number of five, of nine and of ten bytes whose lowest
/// bits are those of the good one, and a tenth byte of 2. The file ends after
/// those of nine bytes, and after half of those with a tenth byte of 2.
fn place_rows() -> Vec<Row> {
    let fields = fields(&pair_with_until());
    let mut rows = Vec::new();
    for (i, (place, number)) in PLACES.into_iter().enumerate() {
        let position = position(&fields, place);
        let good = fields[position].value;
        let mut row = |name: String, bytes: &[u8], ends: bool, number: usize| {
            let (mut file, end) = with_bytes(&fields, position, bytes);
            if ends {
                file.truncate(end);
            }
            rows.push(Row { name, file, number });
        };
        let wide = |bit: u32| write_number(good + 2u64.pow(bit));
        row(format!("r{number:02}_5b_{place}"), &wide(32), false, number);
        row(format!("r{number:02}_9b_{place}"), &wide(56), true, number);
        row(format!("r{number:02}_10b_{place}"), &wide(63), false, number);
        row(format!("r02_t2_{place}"), &tenth(2), i % 2 == 0, 2);
    }
    rows
}

/// Files in which a long number meets another fault.
fn pair_rows() -> Vec<Row> {
    let wide = write_number(2u64.pow(32));
    let wide_one = write_number(2u64.pow(32) + 1);
    let until = write(&pair_with_until());
    // The last five bytes are the second operand, the start count and the start.
    let first = until.len() - 5;
    vec![
        // The form before the number's own cause, the end before the form.
        changed("r02_wide_longer", &CHAIN, 2, &[131, 128, 128, 128, 144, 0], 2),
        changed(
            "r02_wide_tenth_0",
            &CHAIN,
            0,
            &[255, 255, 255, 255, 255, 255, 255, 255, 255, 0],
            2,
        ),
        cut("r01_wide_unended", &CHAIN, 0, &[129, 128, 128, 128, 144], 1),
        // A listed signal too large that is driven or an own input if cut to 32 bits: 4 before 5.
        changed("r04_wide_driven", &PAIR, 16, &wide, 4),
        changed("r04_wide_own_in", &PAIR, 6, &wide_one, 4),
        // The first fault in file order.
        cut("r03_wide_then_2", &CHAIN, 0, &[&wide_one[..], &tenth(2)].concat(), 3),
        cut("r04_then_wide", &CHAIN, 5, &[&[1], &tenth(2)[..]].concat(), 4),
        cut("r06_wide_then_2", &CHAIN, 9, &[&wide_one[..], &tenth(2)].concat(), 6),
        cut("r07_wide_then_2", &CHAIN, 13, &[&wide_one[..], &tenth(2)].concat(), 7),
        cut("r07_wide_then_1", &until, first, &[&wide[..], &[128]].concat(), 7),
        cut("r02_then_wide", &until, first, &[&tenth(2)[..], &wide].concat(), 2),
        cut("r09_wide_then_2", &PAIR, 27, &[&wide[..], &tenth(2)].concat(), 9),
        // Bytes after the last start are not read as numbers.
        changed("r10_tenth_2", &CHAIN, 18, &[&[0], &tenth(2)[..]].concat(), 10),
        changed("r10_unended", &CHAIN, 18, &[&[0], &tenth(2)[..9]].concat(), 10),
    ]
}
