//! Asks a program the questions of every stored case, and compares what it prints.

use std::io::Write;
use std::process::{Command, Stdio};

use super::Outcome;
use crate::answer::answer;
use crate::queries::Queries;
use crate::store::{cases, Case};

/// Asks, of every stored case, the questions whose first word is one of the
/// kinds, or all if there is none; exit code 1 at the first answer that is not
/// this checker's.
pub fn run(program: &str, kinds: &[&str]) -> Outcome {
    let mut asked = 0;
    let cases = cases();
    for case in &cases {
        let queries = Queries::of(case.read());
        for line in &case.questions {
            let words: Vec<&str> = line.split(' ').collect();
            if kinds.is_empty() || kinds.contains(&words[0]) {
                compare(program, &words, case, line, &answer(line, &queries))?;
                asked += 1;
            }
        }
    }
    Ok(format!("{} cases, {asked} questions, no difference\n", cases.len()).into_bytes())
}

/// The same for a program that takes no words and prints the listing.
pub fn run_listing(program: &str) -> Outcome {
    let cases = cases();
    for case in &cases {
        let expected = answer("listing", &Queries::of(case.read()));
        compare(program, &[], case, "listing", &expected)?;
    }
    Ok(format!("{} cases, no difference\n", cases.len()).into_bytes())
}

/// Whether the program, given these words, prints the expected text.
fn compare(
    program: &str,
    words: &[&str],
    case: &Case,
    line: &str,
    expected: &str,
) -> Result<(), (String, u8)> {
    let printed = printed(program, words, &case.file).map_err(|error| (error.to_string(), 1))?;
    if printed == expected.as_bytes() {
        return Ok(());
    }
    let printed = String::from_utf8_lossy(&printed);
    Err((format!("{}: {line}\nprinted  {printed}expected {expected}", case.name), 1))
}

/// What the program prints on the file; it may stop reading before the end.
fn printed(program: &str, words: &[&str], file: &[u8]) -> std::io::Result<Vec<u8>> {
    let mut command = Command::new(program);
    command.args(words).stdin(Stdio::piped()).stdout(Stdio::piped());
    let mut child = command.spawn()?;
    if let Some(mut input) = child.stdin.take() {
        // a program that reads only the first bytes closes its end
        let _ = input.write_all(file);
    }
    Ok(child.wait_with_output()?.stdout)
}
