//! Words: bit j of a number has the value 2^j.

/// 2^j, for j up to 63.
pub fn power(j: usize) -> u64 {
    let mut value = 1;
    for _ in 0..j {
        value *= 2;
    }
    value
}

/// Whether bit j is set in the word.
pub fn bit(word: u64, j: usize) -> bool {
    (word / power(j)) % 2 == 1
}

/// The word whose bit j is set where member j of the list is true.
pub fn word_of(members: &[bool]) -> u64 {
    let mut word = 0;
    for (j, &member) in members.iter().enumerate() {
        if member {
            word += power(j);
        }
    }
    word
}

/// The same for the nodes of a formula, of which there are at most 24.
pub fn word_of_nodes(truths: &[bool]) -> u32 {
    u32::try_from(word_of(truths)).expect("a word of nodes has at most 24 bits")
}

/// Bits 0 to width - 1 of the word as a list; `None` if a bit at or above the
/// width is set.
pub fn members_of(word: u64, width: usize) -> Option<Vec<bool>> {
    let mut members = Vec::new();
    let mut rest = word;
    for _ in 0..width {
        members.push(rest % 2 == 1);
        rest /= 2;
    }
    (rest == 0).then_some(members)
}

/// The positions of the true entries, in ascending order.
pub fn positions(members: &[bool]) -> Vec<usize> {
    (0..members.len()).filter(|&j| members[j]).collect()
}
