//! Numbers of the instrument file. Document 01, "The instrument file".
//!
//! Groups of seven bits, lowest group first; the high bit (128) is set in every
//! byte but the last. Only the shortest form is good, and values end at
//! 2^64 - 1: at most ten bytes, the tenth at most 1.

use crate::refusal::Refusal;

/// The most bytes of a number.
pub const MOST_BYTES: usize = 10;

/// Reads the number at the place and answers it with the next place.
pub fn read_number(file: &[u8], place: usize) -> Result<(u64, usize), Refusal> {
    let mut value: u128 = 0;
    let mut weight: u128 = 1;
    for position in 0..MOST_BYTES {
        let byte = match file.get(place + position) {
            Some(&byte) => u128::from(byte),
            None => return Err(Refusal::FileEnds),
        };
        // A tenth byte above 1 is refused at once, whether or not bytes follow.
        if position == MOST_BYTES - 1 && byte > 1 {
            return Err(Refusal::NumberForm);
        }
        value += (byte % 128) * weight;
        weight *= 128;
        if byte < 128 {
            // A last group of 0 after another group is not the shortest form.
            if position > 0 && byte == 0 {
                return Err(Refusal::NumberForm);
            }
            let value = u64::try_from(value).expect("the tenth byte is at most 1");
            return Ok((value, place + position + 1));
        }
    }
    Err(Refusal::NumberForm)
}

/// The shortest form of a number.
pub fn write_number(value: u64) -> Vec<u8> {
    let mut bytes = Vec::new();
    let mut rest = value;
    loop {
        let group = u8::try_from(rest % 128).expect("a group has seven bits");
        rest /= 128;
        if rest == 0 {
            bytes.push(group);
            return bytes;
        }
        bytes.push(group + 128);
    }
}
