//! Crates entry_queries, value_queries, queries and pinthar: each question over the bytes of a file
//! and a lent buffer. A result has the refusal's number in its upper 32 bits and the answer in the
//! lower. None is inlined, so that a profiler sees where it begins.

use super::instrument::Instrument;
use super::labels::write_truth;
use super::marks::all_marks;
use super::merged::{root_bit, write_merged};
use super::merging::merged_count;
use super::reader::read;
use super::refusal::Refusal;
use super::relations::all_classes;
use super::report::listing_text;
use super::verdict::{by_marks, by_merged, Verdict};
use super::words::StateSet;

/// The largest combination that is built.
const MOST_STATES: usize = 4096;

fn number<T>(result: Result<T, Refusal>, answer: impl FnOnce(T) -> u64) -> u64 {
    match result {
        Ok(value) => answer(value),
        Err(cause) => (cause as u64) << 32,
    }
}

/// The first `count` entries of a lent buffer.
fn room<T>(out: &mut [T], count: usize) -> Result<&mut [T], Refusal> {
    out.get_mut(..count).ok_or(Refusal::Short)
}

/// The full way: a word for every combined state, bit k the truth of node k.
#[inline(never)]
pub fn full_words(file: &[u8], out: &mut [u32]) -> u64 {
    let write = |instrument: Instrument| {
        let count = instrument.combined_count();
        if count > MOST_STATES {
            return Err(Refusal::FullSize);
        }
        write_truth(&instrument, &vec![], room(out, count)?);
        Ok(count)
    };
    number(read(file).and_then(write), |count| count as u64)
}

/// Two words for every component and node, PASS then FAIL, components outermost.
#[inline(never)]
pub fn mark_words(file: &[u8], out: &mut [StateSet]) -> u64 {
    let write = |instrument: Instrument| {
        let count = 2 * instrument.tables.len() * instrument.nodes.len();
        let out = room(out, count)?;
        let marks = all_marks(&instrument);
        for (pair, mark) in out.chunks_exact_mut(2).zip(marks.iter().flatten()) {
            pair.copy_from_slice(&[mark.pass, mark.fail]);
        }
        Ok(count)
    };
    number(read(file).and_then(write), |count| count as u64)
}

/// The name of every state's class, a byte each, components in order.
#[inline(never)]
pub fn class_names(file: &[u8], out: &mut [u8]) -> u64 {
    let write = |instrument: Instrument| {
        let count = instrument.tables.iter().map(|table| table.states).sum();
        let out = room(out, count)?;
        let names = all_classes(&instrument, &all_marks(&instrument));
        for (byte, name) in out.iter_mut().zip(names.iter().flatten()) {
            *byte = *name;
        }
        Ok(count)
    };
    number(read(file).and_then(write), |count| count as u64)
}

/// A word for every merged state.
#[inline(never)]
pub fn merged_words(file: &[u8], out: &mut [u32]) -> u64 {
    let write = |instrument: Instrument| {
        let marks = all_marks(&instrument);
        let names = all_classes(&instrument, &marks);
        let count = merged_count(&names);
        if count > MOST_STATES {
            return Err(Refusal::MergedSize);
        }
        write_merged(&instrument, &marks, &names, room(out, count)?);
        Ok(count)
    };
    number(read(file).and_then(write), |count| count as u64)
}

/// The root's truth in the combined state of these states, 0 past the last component.
#[inline(never)]
pub fn lookup(file: &[u8], states: [u32; 4]) -> u64 {
    let look = |instrument: Instrument| {
        let states = states.map(|state| state as usize);
        if states.iter().zip(instrument.sizes()).any(|(&state, size)| state >= size) {
            return Err(Refusal::Start);
        }
        let marks = all_marks(&instrument);
        let names = all_classes(&instrument, &marks);
        let count = merged_count(&names);
        if count > MOST_STATES {
            return Err(Refusal::MergedSize);
        }
        let mut merged = vec![0; count];
        write_merged(&instrument, &marks, &names, &mut merged);
        Ok(root_bit(&instrument, &names, &merged, states))
    };
    number(read(file).and_then(look), u64::from)
}

/// The verdict on the starts: 0 fails, 1 holds, and 2 besides where the merged words tell.
#[inline(never)]
pub fn verdict(file: &[u8]) -> u64 {
    let judge = |instrument: Instrument| {
        let marks = all_marks(&instrument);
        match by_marks(&instrument, &marks) {
            Some(verdict) => Ok(verdict),
            None => by_merged(&instrument, &marks, &all_classes(&instrument, &marks)),
        }
    };
    number(read(file).and_then(judge), |verdict| match verdict {
        Verdict::Marks(holds) => u64::from(holds),
        Verdict::Merged(holds) => u64::from(holds) + 2,
    })
}

/// The listing's lines. Marks and classes are computed once, for the verdict too.
#[inline(never)]
pub fn listing(file: &[u8], out: &mut [u8]) -> u64 {
    let write = |instrument: Instrument| {
        let marks = all_marks(&instrument);
        let told = by_marks(&instrument, &marks);
        let names = all_classes(&instrument, &marks);
        let verdict = match told {
            Some(verdict) => verdict,
            None => by_merged(&instrument, &marks, &names)?,
        };
        let full = instrument.combined_count();
        let text = listing_text(verdict, &names, merged_count(&names), full);
        room(out, text.len())?.copy_from_slice(&text);
        Ok(text.len())
    };
    number(read(file).and_then(write), |count| count as u64)
}
