//! Every row of the refusal table of document 01.

use second::examples::{merged_too_large, CHAIN};
use second::fields::write;
use second::lent::put;
use second::queries::Queries;
use second::reader::read;
use second::refusal::Refusal;
use second::store::refusal_cases::rows;

#[test]
fn each_file_with_one_fault_gets_its_number() {
    for row in rows() {
        let number = read(&row.file).err().map(Refusal::number);
        assert_eq!(number, Some(row.number), "{}", row.name);
    }
}

#[test]
fn numbers_one_to_ten_are_all_given() {
    let mut numbers: Vec<usize> = rows().iter().map(|row| row.number).collect();
    numbers.sort();
    numbers.dedup();
    assert_eq!(numbers, (1..=10).collect::<Vec<usize>>());
}

#[test]
fn every_cut_of_the_chain_is_one() {
    for length in 0..CHAIN.len() {
        assert_eq!(read(&CHAIN[..length]).err(), Some(Refusal::FileEnds), "{length} bytes");
    }
}

#[test]
fn a_refused_query_leaves_the_buffer() {
    let queries = Queries::of(&write(&merged_too_large())).expect("a good file");
    let mut lent = [5u32; 5200];
    assert_eq!(put(&queries.full(), &mut lent), Err(Refusal::FullTooLarge));
    assert_eq!(put(&queries.merged(), &mut lent), Err(Refusal::MergedTooLarge));
    assert_eq!(lent, [5; 5200]);
    // 11 and 12 come before 13.
    assert_eq!(put(&queries.full(), &mut lent[..0]), Err(Refusal::FullTooLarge));
}

#[test]
fn a_short_buffer_is_thirteen_and_a_long_one_keeps_its_end() {
    let queries = Queries::of(&CHAIN).expect("a good file");
    let mut lent = [9u32; 5];
    assert_eq!(put(&queries.full(), &mut lent[..2]), Err(Refusal::LentResultTooShort));
    assert_eq!(lent, [9; 5]);
    assert_eq!(put(&queries.full(), &mut lent), Ok(3));
    assert_eq!(lent, [1, 1, 0, 9, 9]);
}
