//! The questions of the proved library beside plain Rust ones: same inputs, same run, release
//! builds.
//!
//!     bench [PART]                         a table for each question
//!     bench PART QUESTION                  the table of one question
//!     bench PART QUESTION SIDE [COUNT]     one side alone, COUNT times: for a profiler
//!
//! PART is a part of the inputs' names; a QUESTION is full, marks, classes, merged, verdict,
//! listing or lookup; a SIDE is proved, plain or native.

mod inputs;
mod measure;
mod plain;
mod proved;
mod sides;
mod tables;

/// The plain side once more, which build.rs compiles for the native processor.
extern crate native;

use inputs::Input;
use sides::{Question, QUESTIONS, SIDES};

/// The inputs of a question whose names have this part.
fn chosen(part: &str, question: Question) -> Vec<Input> {
    let mut inputs = if question == Question::Full { inputs::full() } else { inputs::short() };
    inputs.retain(|input| input.name.contains(part));
    inputs
}

/// Asks one side alone.
fn repeat(name: &str, count: usize, question: Question, inputs: &[Input]) {
    let side = SIDES.iter().find(|side| side.0 == name);
    let (_, side) = side.expect("proved, plain or native");
    for input in inputs {
        (0..count).for_each(|_| drop(side.ask(question, input, &mut Default::default())));
    }
}

fn run(arguments: &[String]) {
    let mut words = arguments.iter().map(String::as_str);
    let part = words.next().unwrap_or("");
    let asked = words.next();
    let side = words.next();
    let count = words.next().map_or(1, |word| word.parse().expect("a count"));
    let is_asked = |word: &str| asked.is_none_or(|asked| asked == word);
    let mut questions = QUESTIONS.iter().filter(|(word, _)| is_asked(word)).peekable();
    questions.peek().expect("a question");
    for &(word, question) in questions {
        let inputs = chosen(part, question);
        match side {
            None if inputs.is_empty() => continue,
            None => tables::print(word, question, &inputs),
            Some(name) => repeat(name, count, question, &inputs),
        }
    }
}

fn main() {
    let arguments: Vec<String> = std::env::args().skip(1).collect();
    let thread = std::thread::Builder::new().stack_size(64 << 20).spawn(move || run(&arguments));
    thread.expect("a thread starts").join().expect("the sides agree");
}
