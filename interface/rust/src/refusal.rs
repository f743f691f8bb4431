//! The refusals of document 01, "Refused", by number.

use std::fmt;

#[derive(Clone, Copy, Debug, PartialEq, Eq, PartialOrd, Ord, Hash)]
pub enum Refusal {
    FileEnds = 1,
    NumberForm = 2,
    OutsideRange = 3,
    ListedSignal = 4,
    OutputTaken = 5,
    WordOrSet = 6,
    KindOrOperand = 7,
    UndrivenSignal = 8,
    NoSuchState = 9,
    BytesAfterStarts = 10,
    FullTooLarge = 11,
    MergedTooLarge = 12,
    BufferTooShort = 13,
}

const ALL: [Refusal; 13] = [
    Refusal::FileEnds,
    Refusal::NumberForm,
    Refusal::OutsideRange,
    Refusal::ListedSignal,
    Refusal::OutputTaken,
    Refusal::WordOrSet,
    Refusal::KindOrOperand,
    Refusal::UndrivenSignal,
    Refusal::NoSuchState,
    Refusal::BytesAfterStarts,
    Refusal::FullTooLarge,
    Refusal::MergedTooLarge,
    Refusal::BufferTooShort,
];

impl Refusal {
    /// Its number, 1 to 13; 14 is not used any more.
    pub fn number(self) -> u32 {
        self as u32
    }

    /// Document 01's words for it.
    pub fn cause(self) -> &'static str {
        match self {
            Refusal::FileEnds => "file ends inside or before a number",
            Refusal::NumberForm => "form not shortest, or above 2^64 - 1",
            Refusal::OutsideRange => "count, or asked component number, outside its range",
            Refusal::ListedSignal => "listed signal not ascending or not below W",
            Refusal::OutputTaken => "output already driven, or also an own input",
            Refusal::WordOrSet => "output word or successor set with a bit too high",
            Refusal::KindOrOperand => "unknown kind, or operand not an earlier node",
            Refusal::UndrivenSignal => "formula names a signal that no component drives",
            Refusal::NoSuchState => "start or asked state not in its component",
            Refusal::BytesAfterStarts => "bytes after the last start",
            Refusal::FullTooLarge => "full combination over 4,096 states",
            Refusal::MergedTooLarge => "merged combination over 4,096 states",
            Refusal::BufferTooShort => "lent result shorter than its entries",
        }
    }
}

impl fmt::Display for Refusal {
    fn fmt(&self, f: &mut fmt::Formatter<'_>) -> fmt::Result {
        write!(f, "refused {}: {}", self.number(), self.cause())
    }
}

impl std::error::Error for Refusal {}

/// The answer in the lower 32 bits, or the refusal whose number is in the upper 32.
pub(crate) fn answer(result: u64) -> Result<u32, Refusal> {
    let number = (result >> 32) as u32;
    let named = || ALL.into_iter().find(|refusal| refusal.number() == number);
    match number {
        0 => Ok(result as u32),
        _ => Err(named().expect("a number of the table")),
    }
}
