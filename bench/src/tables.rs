//! The printed tables: for each question, the times of the sides on each input.

use crate::inputs::Input;
use crate::measure::{processor_time, Times};
use crate::sides::{Question, SIDES};
use std::time::Duration;

/// How long the sides are asked about an input: the full way, of which noise is a larger part,
/// longer.
fn enough(question: Question) -> Duration {
    Duration::from_millis(if question == Question::Full { 2000 } else { 400 })
}

/// Asks the sides in turn, forwards and backwards, until it is enough, at least three times unless
/// that takes longer than 30 seconds. So each side comes at times after one that left its memory
/// warm. Ends the program where two answers differ.
fn rounds(question: Question, input: &Input) -> [Times; 3] {
    let mut times = SIDES.map(|_| Times::default());
    let mut expected = None;
    let start = processor_time();
    for round in 0..1000 {
        let limit = if round < 3 { Duration::from_secs(30) } else { enough(question) };
        if round > 0 && processor_time() - start > limit {
            break;
        }
        for turn in 0..3 {
            let k = if round % 2 == 0 { turn } else { 2 - turn };
            let answer = SIDES[k].1.ask(question, input, &mut times[k]);
            let same = *expected.get_or_insert_with(|| answer.clone()) == answer;
            assert!(same, "{}: the sides differ", input.name);
        }
    }
    times
}

/// From so many combined states on the proved side is to take at most 1.2 times as long.
const LARGE: u64 = 512;

/// Best times of the three sides with the ratios of proved to each plain one, then medians; below
/// the table the largest of the first ratios.
pub fn print(word: &str, question: Question, inputs: &[Input]) {
    println!(
        "| {word} | proved | plain | ratio | native | ratio | medians: proved | plain | ratio |"
    );
    println!("|---|--:|--:|--:|--:|--:|--:|--:|--:|");
    let mut largest = (0.0, "no input");
    for input in inputs {
        let [proved, plain, native] = rounds(question, input);
        let ratio = proved.best() / plain.best();
        if input.states() >= LARGE && ratio > largest.0 {
            largest = (ratio, &input.name);
        }
        println!(
            "| {} | {} | {} | **{:.2}** | {} | {:.2} | {} | {} | {:.2} |",
            input.name,
            proved.best(),
            plain.best(),
            ratio,
            native.best(),
            proved.best() / native.best(),
            proved.median(),
            plain.median(),
            proved.median() / plain.median(),
        );
    }
    println!("\nLargest ratio to plain from {LARGE} states on: {:.2}, {}\n", largest.0, largest.1);
}
