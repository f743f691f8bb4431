//! The three sides, each with a function for every question, and a call of one.

use crate::inputs::Input;
use crate::measure::Times;
use crate::{plain, proved};

/// What the lent buffers hold before each call: not zeros, so that an entry left out is seen.
const UNWRITTEN: u8 = 0xbe;

/// Results are those of interface/pinthar.h: the refusal's number in the upper 32 bits.
pub struct Side {
    full_words: fn(&[u8], &mut [u32]) -> u64,
    mark_words: fn(&[u8], &mut [u64]) -> u64,
    class_names: fn(&[u8], &mut [u8]) -> u64,
    merged_words: fn(&[u8], &mut [u32]) -> u64,
    verdict: fn(&[u8]) -> u64,
    listing: fn(&[u8], &mut [u8]) -> u64,
    lookup: fn(&[u8], [u32; 4]) -> u64,
}

macro_rules! side {
    ($module:ident) => {
        Side {
            full_words: $module::full_words,
            mark_words: $module::mark_words,
            class_names: $module::class_names,
            merged_words: $module::merged_words,
            verdict: $module::verdict,
            listing: $module::listing,
            lookup: $module::lookup,
        }
    };
}

/// Proved, plain, and plain for the native processor, in the order of the columns.
pub const SIDES: [(&str, Side); 3] =
    [("proved", side!(proved)), ("plain", side!(plain)), ("native", side!(native))];

#[derive(Clone, Copy, PartialEq)]
pub enum Question {
    Full,
    Marks,
    Classes,
    Merged,
    Verdict,
    Listing,
    Lookup,
}

/// Each question with its word, as the program `query` has it.
pub const QUESTIONS: [(&str, Question); 7] = [
    ("full", Question::Full),
    ("marks", Question::Marks),
    ("classes", Question::Classes),
    ("merged", Question::Merged),
    ("verdict", Question::Verdict),
    ("listing", Question::Listing),
    ("lookup", Question::Lookup),
];

/// A side's result, and the lent buffers afterwards.
#[derive(Clone, PartialEq)]
pub struct Answer {
    result: u64,
    words: Vec<u32>,
    marks: Vec<u64>,
    bytes: Vec<u8>,
}

impl Side {
    /// Asks the question and times it. The buffers are filled before, outside the time.
    pub fn ask(&self, question: Question, input: &Input, times: &mut Times) -> Answer {
        let mut words = vec![u32::from_ne_bytes([UNWRITTEN; 4]); 4096];
        let mut marks = vec![u64::from_ne_bytes([UNWRITTEN; 8]); 192];
        let mut bytes = vec![UNWRITTEN; 4096];
        let file = &input.file;
        let result = times.time(|| match question {
            Question::Full => (self.full_words)(file, &mut words),
            Question::Marks => (self.mark_words)(file, &mut marks),
            Question::Classes => (self.class_names)(file, &mut bytes),
            Question::Merged => (self.merged_words)(file, &mut words),
            Question::Verdict => (self.verdict)(file),
            Question::Listing => (self.listing)(file, &mut bytes),
            Question::Lookup => (self.lookup)(file, input.asked),
        });
        Answer { result, words, marks, bytes }
    }
}
