//! Crates text and report: the lines of the listing.

use super::verdict::Verdict;

fn put(text: &mut Vec<u8>, word: &[u8]) {
    text.extend_from_slice(word);
}

/// A number in decimal digits.
fn decimal(text: &mut Vec<u8>, value: usize) {
    if value >= 10 {
        decimal(text, value / 10);
    }
    text.push(b'0' + (value % 10) as u8);
}

fn verdict_line(text: &mut Vec<u8>, verdict: Verdict) {
    let (holds, stage): (bool, &[u8]) = match verdict {
        Verdict::Marks(holds) => (holds, b" marks\n"),
        Verdict::Merged(holds) => (holds, b" merged\n"),
    };
    put(text, b"verdict ");
    put(text, if holds { b"holds" } else { b"fails" });
    put(text, stage);
}

fn class_line(text: &mut Vec<u8>, c: usize, names: &[u8]) {
    put(text, b"component ");
    decimal(text, c);
    put(text, b" classes");
    for &name in names {
        text.push(b' ');
        decimal(text, usize::from(name));
    }
    text.push(b'\n');
}

/// The verdict's line, a line of class names for each component, and both sizes.
pub fn listing_text(verdict: Verdict, names: &[Vec<u8>], merged: usize, full: usize) -> Vec<u8> {
    let mut text = Vec::with_capacity(2048);
    verdict_line(&mut text, verdict);
    for (c, names) in names.iter().enumerate() {
        class_line(&mut text, c, names);
    }
    put(&mut text, b"merged ");
    decimal(&mut text, merged);
    put(&mut text, b" of ");
    decimal(&mut text, full);
    text.push(b'\n');
    text
}
