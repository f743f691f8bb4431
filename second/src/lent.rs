//! Lent buffers. Document 01, "Refused".

use crate::refusal::Refusal;

/// Puts the entries at the beginning of the lent buffer and answers how many
/// there are. A refusal leaves the buffer as it was; 13 if it is too short.
/// Entries past the result are untouched.
pub fn put<T: Copy>(entries: &Result<Vec<T>, Refusal>, lent: &mut [T]) -> Result<usize, Refusal> {
    let entries = entries.as_ref().map_err(|&refusal| refusal)?;
    if lent.len() < entries.len() {
        return Err(Refusal::LentResultTooShort);
    }
    lent[..entries.len()].copy_from_slice(entries);
    Ok(entries.len())
}
