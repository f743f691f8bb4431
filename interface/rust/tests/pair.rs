//! Document 01's pair, asked from threads with little stack and with much.

use pinthar::*;

const PAIR: [u8; 29] =
    [2, 2, 2, 1, 1, 1, 0, 1, 0, 2, 1, 2, 2, 2, 0, 1, 1, 1, 0, 3, 2, 2, 1, 0, 5, 0, 1, 0, 0];

fn ask_everything() {
    let mut words = [9; 5];
    assert_eq!(full_words(&PAIR, &mut words), Ok(4));
    assert_eq!(words, [3, 0, 1, 0, 9]);
    assert_eq!(full_words(&PAIR, &mut words[..3]), Err(Refusal::BufferTooShort));
    assert_eq!(merged_words(&PAIR, &mut words), Ok(4));
    assert_eq!(words, [3, 0, 1, 0, 9]);
    let mut marks = [9; MOST_MARKS];
    assert_eq!(mark_words(&PAIR, &mut marks), Ok(8));
    assert_eq!(marks[..3], [1, 2, 0]);
    assert_eq!(marks[8..], [9; MOST_MARKS - 8]);
    let mut names = [9; MOST_NAMES];
    assert_eq!(class_names(&PAIR, &mut names), Ok(4));
    assert_eq!(names[..5], [0, 1, 0, 1, 9]);
    let mut text = [9; MOST_TEXT];
    let count = listing(&PAIR, &mut text).expect("2,048 bytes are room enough");
    let lines =
        "verdict holds merged\ncomponent 0 classes 0 1\ncomponent 1 classes 0 1\nmerged 4 of 4\n";
    assert_eq!(&text[..count], lines.as_bytes());
    assert_eq!(lookup(&PAIR, [0, 0, 0, 0]), Ok(true));
    assert_eq!(lookup(&PAIR, [1, 0, 0, 0]), Ok(false));
    assert_eq!(lookup(&PAIR, [0, 0, 1, 0]), Err(Refusal::NoSuchState));
    assert_eq!(verdict(&PAIR), Ok(Verdict { holds: true, stage: Stage::Merged }));
    assert_eq!(verdict(&[]), Err(Refusal::FileEnds));
    assert_eq!(component(&PAIR, 1), Ok(&PAIR[13..21]));
    assert_eq!(component(&PAIR, 2), Err(Refusal::OutsideRange));
    let long = [&PAIR[..], &[0; 1 << 17]].concat();
    assert_eq!(component(&long, 1), Err(Refusal::BytesAfterStarts));
}

#[test]
fn on_a_small_thread() {
    let small = std::thread::Builder::new().stack_size(128 << 10).spawn(ask_everything);
    small.expect("a thread").join().expect("every answer is right");
}

#[test]
fn on_one_thread_with_enough() {
    on_stack(ask_everything);
}

/// Goes down the stack until the work has so many bytes of it above itself.
fn at_depth(bytes: usize, work: &dyn Fn()) {
    fn down(begin: usize, bytes: usize, work: &dyn Fn()) {
        let here = std::hint::black_box([0u8; 1 << 14]);
        if begin.saturating_sub(here.as_ptr() as usize) < bytes {
            down(begin, bytes, work);
        } else {
            work();
        }
        std::hint::black_box(&here);
    }
    let begin = 0u8;
    down(&begin as *const u8 as usize, bytes, work);
}

/// Deep in its own work a thread of `on_stack` no longer has enough: 3 of its 16 MB are left, and the full way of 4,096
/// states takes more than 4.
#[test]
fn deep_in_the_work() {
    let large = include_bytes!("../../../crates/cases/data/sizes_32_32_4");
    let ask = || {
        ask_everything();
        assert_eq!(full_words(large, &mut vec![0; MOST_WORDS]), Ok(4096));
    };
    on_stack(|| at_depth(13 << 20, &ask));
}

/// Of 64 states all are PASS of true, and all FAIL of not true.
#[test]
fn marks_of_64_states() {
    let file = include_bytes!("../../../crates/cases/data/marks_all_64");
    let mut marks = [9; MOST_MARKS];
    assert_eq!(mark_words(file, &mut marks), Ok(26));
    assert_eq!(marks[..4], [u64::MAX, 0, 0, u64::MAX]);
    assert_eq!(marks[26..], [9; MOST_MARKS - 26]);
    let mut names = [9; MOST_NAMES];
    assert_eq!(class_names(file, &mut names), Ok(64));
    assert_eq!(names[64..], [9; MOST_NAMES - 64]);
}

#[test]
fn a_panic_in_the_work_is_passed_on() {
    let caught = std::panic::catch_unwind(|| on_stack(|| panic!("in the work")));
    assert!(caught.is_err());
}
