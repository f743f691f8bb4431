//! Damaged files have long numbers of every form at every kind of place.

use std::collections::BTreeSet;

use second::damage::damaged;
use second::fields::{fields, write, Field, Place};
use second::generator::{instrument_of, tiny};
use second::number::write_number;
use second::prng::Prng;

/// The kind of a place, whatever component, position or node it belongs to.
fn kind(place: Place) -> String {
    let name = format!("{place:?}");
    name.split('(').next().unwrap_or_default().to_string()
}

/// The field in which the byte stands, and where the field begins.
fn field_at(fields: &[Field], byte: usize) -> Option<(Field, usize)> {
    let mut begin = 0;
    for field in fields {
        let end = begin + write_number(field.value).len();
        if byte < end {
            return Some((*field, begin));
        }
        begin = end;
    }
    None
}

/// The bytes of the number at the beginning, up to the first that is not
/// continued or to the tenth.
fn number(bytes: &[u8]) -> &[u8] {
    let last = bytes.iter().position(|&byte| byte < 128).unwrap_or(9);
    &bytes[..bytes.len().min(last.min(9) + 1)]
}

/// The form of a long number and what follows it, in words.
fn form(file: &[u8], begin: usize) -> Option<String> {
    let number = number(&file[begin..]);
    let form = match (number.len(), number[number.len() - 1]) {
        (5, 1..=127) => "five bytes",
        (9, 1..=127) => "nine bytes",
        (9, 128..) => "nine continued",
        (10, 0) => "tenth 0",
        (10, 1) => "tenth 1",
        (10, 2) => "tenth 2",
        _ => return None,
    };
    let ends = begin + number.len() == file.len();
    Some(format!("{form}, then {}", if ends { "the end" } else { "a byte" }))
}

#[test]
fn long_numbers_at_every_kind_of_place() {
    let mut met = BTreeSet::new();
    let mut kinds = BTreeSet::new();
    for seed in 0..60_000 {
        let mut prng = Prng::new(seed);
        let shape = tiny(&mut prng);
        let instrument = instrument_of(&mut prng, &shape);
        let (good, fields) = (write(&instrument), fields(&instrument));
        kinds.extend(fields.iter().map(|field| kind(field.place)));
        let bad = damaged(&mut prng, &instrument).file;
        let changed = (0..good.len()).find(|&i| bad.get(i) != Some(&good[i]));
        let Some((field, begin)) = changed.and_then(|byte| field_at(&fields, byte)) else {
            continue;
        };
        if begin < bad.len() {
            met.extend(form(&bad, begin).map(|form| (kind(field.place), form)));
        }
    }
    assert_eq!(kinds.len(), 15);
    for kind in kinds {
        let unfinished = (kind.clone(), "nine continued, then the end".to_string());
        assert!(met.contains(&unfinished), "{unfinished:?}");
        for form in ["five bytes", "nine bytes", "tenth 0", "tenth 1", "tenth 2"] {
            for rest in ["the end", "a byte"] {
                let wanted = (kind.clone(), format!("{form}, then {rest}"));
                assert!(met.contains(&wanted), "{wanted:?}");
            }
        }
    }
}
