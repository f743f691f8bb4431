//! Crate cursor, `Refusal`: why a call is refused, in the order of document 01's numbers.

#[derive(Clone, Copy, Debug, PartialEq, Eq)]
#[repr(u32)]
pub enum Refusal {
    Ended = 1,
    Form,
    Range,
    Order,
    Driven,
    Bits,
    Formula,
    Undriven,
    Start,
    Trailing,
    FullSize,
    MergedSize,
    Short,
}
