//! Number forms of document 01.

use second::number::{read_number, write_number};
use second::refusal::Refusal;

#[test]
fn good_forms() {
    assert_eq!(read_number(&[0], 0), Ok((0, 1)));
    assert_eq!(read_number(&[127], 0), Ok((127, 1)));
    assert_eq!(read_number(&[128, 1], 0), Ok((128, 2)));
    assert_eq!(read_number(&[255, 127], 0), Ok((16_383, 2)));
    assert_eq!(read_number(&[128, 128, 1], 0), Ok((16_384, 3)));
    assert_eq!(read_number(&[255, 255, 255, 127], 0), Ok((268_435_455, 4)));
    assert_eq!(read_number(&[128, 128, 128, 128, 1], 0), Ok((268_435_456, 5)));
    assert_eq!(read_number(&[255, 255, 255, 255, 15], 0), Ok((4_294_967_295, 5)));
    assert_eq!(read_number(&[128, 128, 128, 128, 16], 0), Ok((4_294_967_296, 5)));
    let nine = [255, 255, 255, 255, 255, 255, 255, 255, 127];
    assert_eq!(read_number(&nine, 0), Ok((9_223_372_036_854_775_807, 9)));
    let ten = [255, 255, 255, 255, 255, 255, 255, 255, 255, 1];
    assert_eq!(read_number(&ten, 0), Ok((18_446_744_073_709_551_615, 10)));
    assert_eq!(read_number(&[9, 5, 7], 1), Ok((5, 2)));
}

#[test]
fn the_file_ends() {
    assert_eq!(read_number(&[], 0), Err(Refusal::FileEnds));
    assert_eq!(read_number(&[3], 1), Err(Refusal::FileEnds));
    for length in 1..=9 {
        assert_eq!(read_number(&[128; 9][..length], 0), Err(Refusal::FileEnds));
    }
}

#[test]
fn bad_forms() {
    assert_eq!(read_number(&[128, 0], 0), Err(Refusal::NumberForm));
    assert_eq!(read_number(&[255, 0], 0), Err(Refusal::NumberForm));
    assert_eq!(read_number(&[128, 128, 0], 0), Err(Refusal::NumberForm));
    assert_eq!(read_number(&[255, 255, 255, 0], 0), Err(Refusal::NumberForm));
    assert_eq!(read_number(&[255, 255, 255, 255, 0], 0), Err(Refusal::NumberForm));
    let nine = [255, 255, 255, 255, 255, 255, 255, 255, 0];
    assert_eq!(read_number(&nine, 0), Err(Refusal::NumberForm));
}

#[test]
fn every_tenth_byte() {
    for tenth in 0..=255 {
        let expected = match tenth {
            1 => Ok((9_223_372_036_854_775_808, 10)),
            _ => Err(Refusal::NumberForm),
        };
        let mut bytes = [128; 11];
        bytes[9] = tenth;
        assert_eq!(read_number(&bytes[..10], 0), expected, "tenth byte {tenth}");
        bytes[10] = 1;
        assert_eq!(read_number(&bytes, 0), expected, "tenth byte {tenth}, then another");
    }
}

#[test]
fn written_numbers_are_read_again() {
    let mut values = vec![0, 1, u64::MAX - 1, u64::MAX];
    for j in 1..64 {
        let power = 2u64.pow(j);
        values.extend([power - 1, power, power + 1]);
    }
    for value in values {
        let bytes = write_number(value);
        assert_eq!(read_number(&bytes, 0), Ok((value, bytes.len())));
    }
}
