//! Damaged files from a seed, with the refusal number they must get.
//!
//! A fault is put at one number of a good file, so it is the first fault in file
//! order and what follows does not matter. Document 01, "Refused".

use std::mem::discriminant;

use crate::fields::{fields, write, Field, Place};
use crate::instrument::Instrument;
use crate::limits;
use crate::number::{write_number, MOST_BYTES};
use crate::prng::Prng;
use crate::refusal::Refusal;

/// The least numbers above 2^32 - 1, of nine bytes and of ten bytes.
const WIDE: [u64; 3] = [2u64.pow(32), 2u64.pow(56), 2u64.pow(63)];

pub struct Damaged {
    pub file: Vec<u8>,
    /// The number it must get, where it is known.
    pub refusal: Option<Refusal>,
}

/// A damaged file made from a good instrument.
pub fn damaged(prng: &mut Prng, instrument: &Instrument) -> Damaged {
    match prng.below(20) {
        0 => cut(prng, instrument),
        1 => trailing(prng, instrument),
        2 | 3 => bytes_changed(prng, instrument),
        4 => unfinished(prng, instrument),
        5 | 6 => not_shortest(prng, instrument),
        7 => too_high(prng, instrument),
        _ => own_cause(prng, instrument),
    }
}

/// The file cut anywhere: it then ends inside or before a number.
fn cut(prng: &mut Prng, instrument: &Instrument) -> Damaged {
    let mut file = write(instrument);
    file.truncate(prng.below(file.len()));
    Damaged { file, refusal: Some(Refusal::FileEnds) }
}

/// Bytes after the last start.
fn trailing(prng: &mut Prng, instrument: &Instrument) -> Damaged {
    let mut file = write(instrument);
    for _ in 0..prng.between(1, 5) {
        file.push(prng.below(256) as u8);
    }
    Damaged { file, refusal: Some(Refusal::BytesAfterLastStart) }
}

/// A few bytes changed; whether and how the file is refused is not known.
fn bytes_changed(prng: &mut Prng, instrument: &Instrument) -> Damaged {
    let mut file = write(instrument);
    for _ in 0..prng.between(1, 3) {
        let place = prng.below(file.len());
        let change = *prng.one_of(&[0, 1, 2, 127, 128, 129, 255]);
        file[place] = if prng.percent(50) { change } else { prng.below(256) as u8 };
    }
    Damaged { file, refusal: None }
}

/// The position of a number; each kind of place is taken equally often.
fn drawn_position(prng: &mut Prng, fields: &[Field]) -> usize {
    let kind = |field: &Field| discriminant(&field.place);
    let mut kinds = Vec::new();
    for field in fields {
        if !kinds.contains(&kind(field)) {
            kinds.push(kind(field));
        }
    }
    let wanted = *prng.one_of(&kinds);
    let of_kind = |position: &usize| kind(&fields[*position]) == wanted;
    let positions: Vec<usize> = (0..fields.len()).filter(of_kind).collect();
    *prng.one_of(&positions)
}

/// The file ends after one to nine continued bytes of a number.
fn unfinished(prng: &mut Prng, instrument: &Instrument) -> Damaged {
    let fields = fields(instrument);
    let position = drawn_position(prng, &fields);
    let continued = [128, 255, 128, 129, 255, 128, 144, 128, 255];
    let length = prng.between(1, MOST_BYTES - 1);
    let (mut file, end) = with_bytes(&fields, position, &continued[..length]);
    file.truncate(end);
    Damaged { file, refusal: Some(Refusal::FileEnds) }
}

/// A number with a last group of 0 that is not needed, in any length up to ten
/// bytes. It may also be too large for its place: the form is judged first.
fn not_shortest(prng: &mut Prng, instrument: &Instrument) -> Damaged {
    let fields = fields(instrument);
    let position = drawn_position(prng, &fields);
    let own = fields[position].value;
    let value = *prng.one_of(&[own, own, own | WIDE[0], own | WIDE[1]]);
    let mut bytes = write_number(value);
    // A number of ten bytes cannot be longer.
    if bytes.len() == MOST_BYTES {
        bytes = write_number(WIDE[1]);
    }
    let length = prng.between(bytes.len() + 1, MOST_BYTES);
    *bytes.last_mut().expect("a number has a byte") += 128;
    bytes.resize(length - 1, 128);
    bytes.push(0);
    let file = with_any_rest(prng, &fields, position, &bytes);
    Damaged { file, refusal: Some(Refusal::NumberForm) }
}

/// A number whose tenth byte is above 1, also one that is continued.
fn too_high(prng: &mut Prng, instrument: &Instrument) -> Damaged {
    let fields = fields(instrument);
    let position = drawn_position(prng, &fields);
    let tenth = *prng.one_of(&[2, 2, 3, 127, 128, 129, 130, 255]);
    let bytes = [128, 128, 255, 129, 128, 143, 255, 128, 128, tenth];
    let file = with_any_rest(prng, &fields, position, &bytes);
    Damaged { file, refusal: Some(Refusal::NumberForm) }
}

/// A number in good form that is refused for its own cause.
fn own_cause(prng: &mut Prng, instrument: &Instrument) -> Damaged {
    let fields = fields(instrument);
    let mut faults = Vec::new();
    for (position, field) in fields.iter().enumerate() {
        for (value, refusal) in faulty_values(instrument, field) {
            faults.push((position, value, refusal));
        }
    }
    // Each number that can be given here is taken equally often.
    let numbers: Vec<Refusal> = (3..=9)
        .filter_map(|n| faults.iter().map(|fault| fault.2).find(|refusal| refusal.number() == n))
        .collect();
    let wanted = *prng.one_of(&numbers);
    faults.retain(|fault| fault.2 == wanted);
    let (position, value, refusal) = *prng.one_of(&faults);
    let file = with_any_rest(prng, &fields, position, &write_number(value));
    Damaged { file, refusal: Some(refusal) }
}

/// The file with other bytes for the number at the position, and where they end.
pub fn with_bytes(fields: &[Field], position: usize, bytes: &[u8]) -> (Vec<u8>, usize) {
    let mut file: Vec<u8> = Vec::new();
    let mut end = 0;
    for (i, field) in fields.iter().enumerate() {
        if i == position {
            file.extend(bytes);
            end = file.len();
        } else {
            file.extend(write_number(field.value));
        }
    }
    (file, end)
}

/// The same, where the rest of the file is kept, left out, or replaced.
fn with_any_rest(prng: &mut Prng, fields: &[Field], position: usize, bytes: &[u8]) -> Vec<u8> {
    let (mut file, end) = with_bytes(fields, position, bytes);
    match prng.below(4) {
        0 => file.truncate(end),
        1 => {
            file.truncate(end);
            for _ in 0..prng.between(1, 6) {
                file.push(prng.below(256) as u8);
            }
        }
        _ => {}
    }
    file
}

/// Values that are refused at the field, with the number they get.
fn faulty_values(instrument: &Instrument, field: &Field) -> Vec<(u64, Refusal)> {
    let tables = &instrument.tables;
    let own = field.value;
    match field.place {
        Place::ComponentCount => count_faults(own, 1, limits::COMPONENTS),
        Place::SignalCount => count_faults(own, 0, limits::SIGNALS),
        Place::StateCount => count_faults(own, 1, limits::STATES),
        Place::InputCount => count_faults(own, 0, limits::INPUTS),
        Place::OutputCount => count_faults(own, 0, limits::OUTPUTS),
        Place::NodeCount => count_faults(own, 1, limits::NODES),
        Place::StartCount => count_faults(own, 0, limits::STARTS),
        Place::Input(c, position) => {
            listed_signal_faults(own, instrument, &tables[c].inputs[..position])
        }
        Place::Output(c, position) => output_faults(own, instrument, c, position),
        Place::OutputWord(c) => bit_faults(own, tables[c].outputs.len()),
        Place::SuccessorSet(c) => {
            let mut faults = bit_faults(own, tables[c].states());
            // The good set and, beside its members, the lowest bit too high.
            faults.extend(faults.first().map(|&(least, refusal)| (own + least, refusal)));
            faults
        }
        Place::Kind => at_or_above(own, 7, Refusal::KindOrOperand),
        Place::NodeOperand(k) => at_or_above(own, k as u128, Refusal::KindOrOperand),
        Place::SignalOperand => undriven_signals(own, instrument),
        Place::StartState(c) => {
            at_or_above(own, tables[c].states() as u128, Refusal::StateNotInComponent)
        }
    }
}

/// The least value too high and some further ones, up to 2^64 - 1. Among them
/// are numbers of five, nine and ten bytes whose lower 32 bits are those of the
/// number's own, good value.
fn at_or_above(own: u64, least: u128, refusal: Refusal) -> Vec<(u64, Refusal)> {
    let mut values = vec![least, least + 1, 2 * least];
    values.extend([WIDE[0] - 1, WIDE[2] - 1, u64::MAX].map(u128::from));
    values.extend(WIDE.map(|wide| u128::from(own | wide)));
    let fitting = values.into_iter().filter(|&value| value >= least);
    fitting.filter_map(|value| Some((u64::try_from(value).ok()?, refusal))).collect()
}

/// Values with a bit too high for the width.
fn bit_faults(own: u64, width: usize) -> Vec<(u64, Refusal)> {
    at_or_above(own, 2u128.pow(width as u32), Refusal::WordOrSet)
}

fn count_faults(own: u64, least: usize, most: usize) -> Vec<(u64, Refusal)> {
    let mut faults = at_or_above(own, most as u128 + 1, Refusal::CountOutsideRange);
    if least > 0 {
        faults.push((0, Refusal::CountOutsideRange));
    }
    faults
}

/// Not ascending, or not below W.
fn listed_signal_faults(
    own: u64,
    instrument: &Instrument,
    before: &[usize],
) -> Vec<(u64, Refusal)> {
    let mut faults = at_or_above(own, instrument.signals as u128, Refusal::ListedSignal);
    if let Some(&last) = before.last() {
        let not_ascending = (0..=last).map(|signal| (signal as u64, Refusal::ListedSignal));
        faults.extend(not_ascending);
    }
    faults
}

/// As for a listed signal; and an ascending one that is driven by an earlier
/// component or is an own input.
fn output_faults(
    own: u64,
    instrument: &Instrument,
    c: usize,
    position: usize,
) -> Vec<(u64, Refusal)> {
    let table = &instrument.tables[c];
    let before = &table.outputs[..position];
    let mut faults = listed_signal_faults(own, instrument, before);
    for signal in 0..instrument.signals {
        let ascending = before.iter().all(|&earlier| earlier < signal);
        let driven = instrument.tables[..c].iter().any(|earlier| earlier.drives(signal));
        if ascending && (driven || table.inputs.contains(&signal)) {
            faults.push((signal as u64, Refusal::OutputTaken));
        }
    }
    faults
}

fn undriven_signals(own: u64, instrument: &Instrument) -> Vec<(u64, Refusal)> {
    let mut faults = at_or_above(own, instrument.signals as u128, Refusal::UndrivenSignal);
    for signal in 0..instrument.signals {
        if !instrument.tables.iter().any(|table| table.drives(signal)) {
            faults.push((signal as u64, Refusal::UndrivenSignal));
        }
    }
    faults
}
