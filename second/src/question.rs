//! A question as one line: words with exactly one space between them.

#[derive(Clone, Copy, Debug, PartialEq, Eq)]
pub enum Question {
    Full,
    Marks,
    Classes,
    Merged,
    Listing,
    Verdict,
    /// The root in a combined state.
    Lookup([u32; 4]),
    /// A component's own part of the file.
    Stretch(u32),
}

impl Question {
    /// The question of a line without its end; nothing if the line is unknown.
    pub fn of(line: &str) -> Option<Question> {
        let words: Vec<&str> = line.split(' ').collect();
        match words.as_slice() {
            ["full"] => Some(Question::Full),
            ["marks"] => Some(Question::Marks),
            ["classes"] => Some(Question::Classes),
            ["merged"] => Some(Question::Merged),
            ["listing"] => Some(Question::Listing),
            ["verdict"] => Some(Question::Verdict),
            ["lookup", a, b, c, d] => {
                Some(Question::Lookup([number(a)?, number(b)?, number(c)?, number(d)?]))
            }
            ["stretch", c] => Some(Question::Stretch(number(c)?)),
            _ => None,
        }
    }
}

/// One to ten decimal digits with a value of at most 2^32 - 1.
fn number(word: &str) -> Option<u32> {
    if word.is_empty() || word.len() > 10 {
        return None;
    }
    let mut value: u64 = 0;
    for byte in word.bytes() {
        if !byte.is_ascii_digit() {
            return None;
        }
        value = 10 * value + u64::from(byte - b'0');
    }
    u32::try_from(value).ok()
}
