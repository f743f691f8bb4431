//! The text that is printed for a question about a file; each line ends with byte 10.

use crate::listing::{class_line, refusal_line};
use crate::queries::Queries;
use crate::question::Question;
use crate::refusal::Refusal;

/// The one line for what is no question.
pub const USAGE: &str = "usage: query full | marks | classes | merged | listing | \
    lookup A B C D | verdict | stretch C < FILE\n";

/// The text for a line, whatever it is.
pub fn answer(line: &str, queries: &Result<Queries, Refusal>) -> String {
    match Question::of(line) {
        Some(question) => text(question, queries),
        None => USAGE.to_string(),
    }
}

/// The text for a question; the file or the question may be refused.
pub fn text(question: Question, queries: &Result<Queries, Refusal>) -> String {
    let text = match queries {
        Ok(queries) => answered(question, queries),
        Err(refusal) => Err(*refusal),
    };
    text.unwrap_or_else(|refusal| refusal_line(refusal) + "\n")
}

fn answered(question: Question, queries: &Queries) -> Result<String, Refusal> {
    Ok(match question {
        Question::Full => decimal(&queries.full()?) + "\n",
        Question::Marks => mark_lines(queries),
        Question::Classes => class_lines(queries),
        Question::Merged => decimal(&queries.merged()?) + "\n",
        Question::Listing => queries.listing()?,
        Question::Verdict => queries.verdict()?.text() + "\n",
        Question::Lookup(asked) => format!("{}\n", queries.lookup(asked)?),
        Question::Stretch(component) => hexadecimal(queries.stretch(component)?) + "\n",
    })
}

/// Words in decimal with one space between.
fn decimal(words: &[u32]) -> String {
    let words: Vec<String> = words.iter().map(|word| word.to_string()).collect();
    words.join(" ")
}

/// Lowercase hexadecimal, two digits a byte.
fn hexadecimal(bytes: &[u8]) -> String {
    bytes.iter().map(|byte| format!("{byte:02x}")).collect()
}

/// `component C node K PASS P FAIL F` for every component and node.
fn mark_lines(queries: &Queries) -> String {
    let nodes = queries.bench.instrument.nodes.len();
    let mut lines = String::new();
    for (i, pair) in queries.marks().chunks(2).enumerate() {
        let (c, k) = (i / nodes, i % nodes);
        lines += &format!("component {c} node {k} PASS {} FAIL {}\n", pair[0], pair[1]);
    }
    lines
}

/// `component C classes ..` for every component.
fn class_lines(queries: &Queries) -> String {
    let line = |c: usize| class_line(&queries.bench, c) + "\n";
    (0..queries.bench.names.len()).map(line).collect()
}
