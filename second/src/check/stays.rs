//! Both ways to write a stay get the same answers, and each file its own bytes.
//! Document 02, 2/14.

use super::answers::different;
use super::{Checked, Violation};
use crate::counts::Counts;
use crate::fields::{fields, write, Place};
use crate::number::write_number;
use crate::prng::Prng;
use crate::queries::Queries;
use crate::stays::{every_stay, Stay};

/// The file with every stay spelled out and the one with every stay an empty set
/// are each compared with the file as it is, where they are other files.
pub fn check(checked: &Checked, prng: &mut Prng, counts: &mut Counts) -> Result<(), Violation> {
    let file = write(checked.instrument);
    check_stretches(&checked.queries, &file, counts)?;
    for stay in [Stay::SpelledOut, Stay::Empty] {
        let respelled = write(&every_stay(checked.instrument, stay));
        if respelled == file {
            continue;
        }
        let queries = Queries::under(&respelled, checked.reading)
            .map_err(|refusal| format!("stays {stay:?}: refused {}", refusal.number()))?;
        let files = "with other stays";
        if let Some(question) = different(&checked.queries, &queries, files, prng, counts) {
            return Err(format!("stays {stay:?}: another answer to {question}"));
        }
        if queries.bench.merged_tables != checked.queries.bench.merged_tables {
            return Err(format!("stays {stay:?}: other merged tables"));
        }
        check_stretches(&queries, &respelled, counts)?;
        counts.add(&format!("files with all stays {stay:?}"), 1);
    }
    Ok(())
}

/// Each stretch has the file's own bytes, from the state count to the last
/// successor set; the number past the last component and the largest get 3.
fn check_stretches(queries: &Queries, file: &[u8], counts: &mut Counts) -> Result<(), Violation> {
    let mut begins = Vec::new();
    let mut place = 0;
    for field in fields(&queries.bench.instrument) {
        if matches!(field.place, Place::StateCount | Place::NodeCount) {
            begins.push(place);
        }
        place += write_number(field.value).len();
    }
    for (c, ends) in begins.windows(2).enumerate() {
        if queries.stretch(c as u32) != Ok(&file[ends[0]..ends[1]]) {
            return Err(format!("stretch {c} is not the file's own bytes"));
        }
        counts.add("stretches", 1);
    }
    for c in [begins.len() as u32 - 1, u32::MAX] {
        if queries.stretch(c).err().map(|refusal| refusal.number()) != Some(3) {
            return Err(format!("stretch {c} is not refused 3"));
        }
    }
    Ok(())
}
