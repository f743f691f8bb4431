//! Questions whose answers are entries in a lent buffer.

use crate::raw::{self, Writer};
use crate::refusal::{answer, Refusal};
use crate::stack::with_room;

/// Room enough for the full words and the merged words of every file.
pub const MOST_WORDS: usize = 4096;
/// Room enough for the marks of every file.
pub const MOST_MARKS: usize = 192;
/// Room enough for the class names of every file.
pub const MOST_NAMES: usize = 256;
/// Room enough for the listing of every file.
pub const MOST_TEXT: usize = 2048;

fn written<T: Send>(writer: Writer<T>, file: &[u8], out: &mut [T]) -> Result<usize, Refusal> {
    // SAFETY: the two slices are valid for their lengths and do not overlap, and the stack is large enough.
    let result =
        with_room(|| unsafe { writer(file.as_ptr(), file.len(), out.as_mut_ptr(), out.len()) });
    answer(result).map(|count| count as usize)
}

/// The full way: a word per combined state, bit k the truth of node k.
pub fn full_words(file: &[u8], out: &mut [u32]) -> Result<usize, Refusal> {
    written(raw::pinthar_full_words, file, out)
}

/// Marks: two words for every component and node, PASS then FAIL, bit t for state t, components outermost.
pub fn mark_words(file: &[u8], out: &mut [u64]) -> Result<usize, Refusal> {
    written(raw::pinthar_mark_words, file, out)
}

/// Classes: the name of every state's class, a byte per state, components in order.
pub fn class_names(file: &[u8], out: &mut [u8]) -> Result<usize, Refusal> {
    written(raw::pinthar_class_names, file, out)
}

/// Merged words: a word per merged state, bit k the truth of node k if that is the root or stands under it.
pub fn merged_words(file: &[u8], out: &mut [u32]) -> Result<usize, Refusal> {
    written(raw::pinthar_merged_words, file, out)
}

/// The listing program's lines as bytes, each line ending with byte 10.
pub fn listing(file: &[u8], out: &mut [u8]) -> Result<usize, Refusal> {
    written(raw::pinthar_listing, file, out)
}
