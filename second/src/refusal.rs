//! The refusals of document 01, "Refused", by number.

#[derive(Clone, Copy, Debug, PartialEq, Eq, PartialOrd, Ord)]
pub enum Refusal {
    FileEnds = 1,
    NumberForm = 2,
    CountOutsideRange = 3,
    ListedSignal = 4,
    OutputTaken = 5,
    WordOrSet = 6,
    KindOrOperand = 7,
    UndrivenSignal = 8,
    StateNotInComponent = 9,
    BytesAfterLastStart = 10,
    FullTooLarge = 11,
    MergedTooLarge = 12,
    LentResultTooShort = 13,
}

impl Refusal {
    pub fn number(self) -> usize {
        self as usize
    }
}
