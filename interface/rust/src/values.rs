//! Questions whose answer is a value: the lookup, the verdict, and a component's part of the file.

use crate::raw;
use crate::refusal::{answer, Refusal};
use crate::stack::with_room;

/// Whether marks decide, or the merged combination.
#[derive(Clone, Copy, Debug, PartialEq, Eq)]
pub enum Stage {
    Marks,
    Merged,
}

/// Whether every start satisfies the root, and the stage that tells.
#[derive(Clone, Copy, Debug, PartialEq, Eq)]
pub struct Verdict {
    pub holds: bool,
    pub stage: Stage,
}

/// The lookup: whether the root is true in the combined state of these states, in component order, 0 past the last
/// component.
pub fn lookup(file: &[u8], states: [u32; 4]) -> Result<bool, Refusal> {
    let [s0, s1, s2, s3] = states;
    // SAFETY: the slice is valid for its length, and the stack is large enough.
    let result =
        with_room(|| unsafe { raw::pinthar_lookup(file.as_ptr(), file.len(), s0, s1, s2, s3) });
    answer(result).map(|root| root == 1)
}

/// The verdict on the starts, with its stage.
pub fn verdict(file: &[u8]) -> Result<Verdict, Refusal> {
    // SAFETY: the slice is valid for its length, and the stack is large enough.
    let result = with_room(|| unsafe { raw::pinthar_verdict(file.as_ptr(), file.len()) });
    let code = answer(result)?;
    let stage = if code < 2 { Stage::Marks } else { Stage::Merged };
    Ok(Verdict { holds: code % 2 == 1, stage })
}

/// A component's own part of the file, from its state count to its last successor set.
pub fn component(file: &[u8], component: u32) -> Result<&[u8], Refusal> {
    // SAFETY: the slice is valid for its length, and the stack is large enough.
    let result =
        with_room(|| unsafe { raw::pinthar_component(file.as_ptr(), file.len(), component) });
    let code = answer(result)? as usize;
    let (place, size) = (code >> 16, code & 0xffff);
    Ok(&file[place..place + size])
}
