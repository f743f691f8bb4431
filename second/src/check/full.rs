//! The words of the full way. Document 01, "Meaning".

use super::{Checked, Violation};
use crate::counts::Counts;
use crate::limits;
use crate::refusal::Refusal;
use crate::word::bit;

/// One word per index: bit k is the truth of node k and higher bits are 0; or 11.
pub fn check(checked: &Checked, counts: &mut Counts) -> Result<(), Violation> {
    let size: usize = checked.instrument.tables.iter().map(|table| table.states()).product();
    let words = match (checked.queries.full(), size > limits::COMBINED_STATES) {
        (Ok(words), false) if words.len() == size => words,
        (Err(Refusal::FullTooLarge), true) => return Ok(()),
        _ => return Err("full words are not one per combined state, or 11".to_string()),
    };
    let Some((_, truth)) = &checked.full else {
        return Err("a combination with full words was not built".to_string());
    };
    for (i, &word) in words.iter().enumerate() {
        for j in 0..32 {
            let expected = truth.get(j).is_some_and(|node| node[i]);
            if bit(u64::from(word), j) != expected {
                return Err(format!("bit {j} of full word {i} is not {expected}"));
            }
        }
    }
    counts.add("full words", words.len());
    Ok(())
}
