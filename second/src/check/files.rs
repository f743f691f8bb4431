//! Files, text and lent buffers.

use super::Violation;
use crate::counts::Counts;
use crate::damage::damaged;
use crate::fields::write;
use crate::instrument::Instrument;
use crate::lent::put;
use crate::notation::{from_text, to_text};
use crate::prng::Prng;
use crate::queries::Queries;
use crate::reader::read;
use crate::refusal::Refusal;

/// The written file is accepted and gives the instrument back; so does the text.
pub fn check_good_file(instrument: &Instrument, counts: &mut Counts) -> Result<(), Violation> {
    let file = write(instrument);
    match read(&file) {
        Ok(accepted) if accepted.instrument == *instrument => {}
        Ok(_) => return Err("reading the written file gives another instrument".to_string()),
        Err(refusal) => return Err(format!("a good file is refused {}", refusal.number())),
    }
    let text = to_text(instrument);
    let again = from_text(&text).map_err(|error| format!("the text is not read: {error}"))?;
    if write(&again) != file {
        return Err("file to text to file gives other bytes".to_string());
    }
    if to_text(&again) != text {
        return Err("text to file to text gives another text".to_string());
    }
    counts.add("text round trips", 1);
    Ok(())
}

/// Two damaged files: each gets its number where that is known. One that is
/// accepted is written again with the same bytes.
pub fn check_damaged_files(
    instrument: &Instrument,
    prng: &mut Prng,
    counts: &mut Counts,
) -> Result<(), Violation> {
    for _ in 0..2 {
        let damaged = damaged(prng, instrument);
        counts.add("damaged files", 1);
        let result = read(&damaged.file);
        let refusal = result.as_ref().err().copied();
        if damaged.refusal.is_some() && refusal != damaged.refusal {
            let file = &damaged.file;
            let wanted = damaged.refusal.map(Refusal::number);
            let met = refusal.map(Refusal::number);
            return Err(format!("bytes {file:?}: expected {wanted:?}, met {met:?}"));
        }
        match result {
            Err(refusal) => counts.add(&format!("refusal {:2}", refusal.number()), 1),
            Ok(accepted) if write(&accepted.instrument) == damaged.file => {
                counts.add("damaged files that are good", 1);
            }
            Ok(_) => return Err(format!("bytes {:?}: accepted in two forms", damaged.file)),
        }
    }
    Ok(())
}

/// Buffers one entry short and three entries long.
pub fn check_lent_buffers(queries: &Queries, counts: &mut Counts) -> Result<(), Violation> {
    let full = queries.full();
    let merged = queries.merged();
    for refusal in [full.as_ref().err(), merged.as_ref().err()].into_iter().flatten() {
        counts.add(&format!("refusal {:2}", refusal.number()), 1);
    }
    check_lent(&full, 77, counts)?;
    check_lent(&merged, 77, counts)?;
    check_lent(&Ok(queries.marks()), 77, counts)?;
    check_lent(&Ok(queries.classes()), 77, counts)?;
    check_lent(&queries.listing().map(String::into_bytes), 77, counts)
}

fn check_lent<T: Copy + PartialEq>(
    entries: &Result<Vec<T>, Refusal>,
    pattern: T,
    counts: &mut Counts,
) -> Result<(), Violation> {
    let length = entries.as_ref().map_or(4096, |entries| entries.len());
    let mut short = vec![pattern; length - 1];
    let mut long = vec![pattern; length + 3];
    let of_short = put(entries, &mut short);
    let of_long = put(entries, &mut long);
    counts.add("lent buffers", 2);
    let kept = |list: &[T]| list.iter().all(|entry| *entry == pattern);
    let as_listed = match entries {
        Ok(list) => {
            of_short == Err(Refusal::LentResultTooShort)
                && of_long == Ok(length)
                && long[..length] == list[..]
                && kept(&long[length..])
        }
        Err(refusal) => of_short == Err(*refusal) && of_long == Err(*refusal) && kept(&long),
    };
    if as_listed && kept(&short) {
        Ok(())
    } else {
        Err("a lent buffer is not left as listed".to_string())
    }
}
