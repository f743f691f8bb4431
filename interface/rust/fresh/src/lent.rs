//! Questions that lend a buffer: the expected entries against what a call leaves in buffers of several lengths.

use std::fmt::Debug;

use second::lent::put;
use second::refusal::Refusal;

use crate::counts::Counts;

/// A call of the library.
pub type Call<T> = fn(&[u8], &mut [T]) -> Result<usize, pinthar::Refusal>;

/// A buffer whose entries differ from place to place, so that one that was moved or written is seen.
fn patterned<T: TryFrom<usize>>(length: usize) -> Vec<T> {
    let entry = |place: usize| T::try_from(165 ^ (place % 97)).ok().expect("it is below 256");
    (0..length).map(entry).collect()
}

/// Buffers that are empty, short by one, exact, long by three, and long enough for every file.
fn lengths(entries: usize) -> Vec<usize> {
    vec![0, entries.saturating_sub(1), entries, entries + 3, 4099]
}

/// Compares the answer and the whole buffer, for every length.
pub fn compare_lent<T>(
    question: &str,
    call: Call<T>,
    file: &[u8],
    expected: &Result<Vec<T>, Refusal>,
    counts: &mut Counts,
) -> Result<(), String>
where
    T: TryFrom<usize> + Copy + PartialEq + Debug,
{
    let entries = expected.as_ref().map_or(0, Vec::len);
    if let Some(refusal) = expected.as_ref().err().filter(|refusal| refusal.number() > 10) {
        counts.add(&format!("{question} refused by {}", refusal.number()), 1);
    }
    for length in lengths(entries) {
        let mut wanted: Vec<T> = patterned(length);
        let mut given = wanted.clone();
        let wanted_answer = put(expected, &mut wanted).map_err(Refusal::number);
        let given_answer = call(file, &mut given).map_err(|refusal| refusal.number() as usize);
        counts.add(&format!("calls of {question}"), 1);
        if given_answer != wanted_answer {
            return Err(format!(
                "{question}, {length} entries lent: {given_answer:?}, but the second checker {wanted_answer:?}"
            ));
        }
        if let Some(place) = (0..length).find(|&place| given[place] != wanted[place]) {
            return Err(format!(
                "{question}, {length} entries lent: entry {place} is {:?}, but must be {:?}",
                given[place], wanted[place]
            ));
        }
    }
    Ok(())
}
