//! Crates start_marks and verdict: whether every start satisfies the root, and the stage that tells.

use super::instrument::Instrument;
use super::marks::Mark;
use super::merged::{root_bit, write_merged};
use super::merging::merged_count;
use super::refusal::Refusal;
use super::words::StateSet;

#[derive(Clone, Copy)]
pub enum Verdict {
    Marks(bool),
    Merged(bool),
}

/// What the marks at the root say of all starts: nothing, or the verdict.
pub fn by_marks(instrument: &Instrument, marks: &[Vec<Mark>]) -> Option<Verdict> {
    let root = instrument.nodes.len() - 1;
    let (mut failing, mut passing) = (false, true);
    for start in &instrument.starts {
        let marked = |set: fn(Mark) -> StateSet| {
            marks.iter().zip(start).any(|(marks, state)| set(marks[root]) >> state & 1 == 1)
        };
        let (pass, fail) = (marked(|mark| mark.pass), marked(|mark| mark.fail));
        failing |= fail;
        passing &= pass;
    }
    match (failing, passing) {
        (true, _) => Some(Verdict::Marks(false)),
        (_, true) => Some(Verdict::Marks(true)),
        _ => None,
    }
}

/// The verdict by the merged words.
pub fn by_merged(
    instrument: &Instrument,
    marks: &[Vec<Mark>],
    names: &[Vec<u8>],
) -> Result<Verdict, Refusal> {
    let count = merged_count(names);
    if count > 4096 {
        return Err(Refusal::MergedSize);
    }
    let mut merged = vec![0; count];
    write_merged(instrument, marks, names, &mut merged);
    let holds = |&start: &[usize; 4]| root_bit(instrument, names, &merged, start);
    Ok(Verdict::Merged(instrument.starts.iter().all(holds)))
}
