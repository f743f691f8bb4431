//! The commands of README.md. A refusal is an answer and ends with exit code 0;
//! a violation, a difference or a bad text with 1; a bad command with 2.

mod ask;
mod development;
mod file_queries;

use std::io::{self, Read, Write};
use std::process::ExitCode;

const USAGE: &str = "usage: second COMMAND
  full | merged | marks | classes | lookup A B C D | verdict | stretch C | listing | refusal
  to-file | to-text
  self-check [FIRST] [COUNT] | wrong-readings [COUNT]
  store [FOLDER] | compare [FOLDER]
  ask PROGRAM [QUESTION..] | ask-listing PROGRAM";

/// What a command prints on standard output, or a message and an exit code.
pub type Outcome = Result<Vec<u8>, (String, u8)>;

pub fn run(arguments: &[String]) -> ExitCode {
    let words: Vec<&str> = arguments.iter().map(String::as_str).collect();
    let outcome = match words.as_slice() {
        ["self-check" | "wrong-readings" | "store" | "compare", ..] => development::run(&words),
        ["ask", program, kinds @ ..] => ask::run(program, kinds),
        ["ask-listing", program] => ask::run_listing(program),
        ["to-file"] => file_queries::to_file(&standard_input(u64::MAX)),
        [_, ..] => file_queries::run(&words),
        [] => Err((USAGE.to_string(), 2)),
    };
    match outcome {
        Ok(output) => match io::stdout().write_all(&output) {
            Ok(()) => ExitCode::SUCCESS,
            Err(_) => ExitCode::from(1),
        },
        Err((message, code)) => {
            eprintln!("{message}");
            ExitCode::from(code)
        }
    }
}

/// An unknown command or a bad argument.
fn usage() -> (String, u8) {
    (USAGE.to_string(), 2)
}

/// A decimal argument.
fn number<T: std::str::FromStr>(word: &str) -> Result<T, (String, u8)> {
    word.parse().map_err(|_| (format!("{word} is not a number in range"), 2))
}

/// Standard input, up to the given number of bytes.
fn standard_input(most: u64) -> Vec<u8> {
    let mut bytes = Vec::new();
    match io::stdin().take(most).read_to_end(&mut bytes) {
        Ok(_) => bytes,
        Err(_) => Vec::new(),
    }
}
