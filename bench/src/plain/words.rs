//! Crate state_words: sets of a component's states as machine words.

/// Bit t for state t.
pub type StateSet = u64;

/// The most states of a component.
pub const MOST_STATES: usize = StateSet::BITS as usize;

/// All states below `count`.
pub fn below(count: usize) -> StateSet {
    let bit: Option<StateSet> = (1 as StateSet).checked_shl(count as u32);
    bit.map_or(StateSet::MAX, |bit| bit - 1)
}

/// Members of a word, ascending.
pub fn members(mut word: StateSet) -> impl Iterator<Item = usize> {
    std::iter::from_fn(move || {
        if word == 0 {
            return None;
        }
        let lowest = word.trailing_zeros() as usize;
        word &= word - 1;
        Some(lowest)
    })
}
