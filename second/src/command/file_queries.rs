//! Commands that read an instrument file, or its text, on standard input.

use super::{standard_input, usage, Outcome};
use crate::answer;
use crate::fields::write;
use crate::limits;
use crate::listing::refusal_line;
use crate::notation::{from_text, to_text};
use crate::queries::Queries;
use crate::question::Question;
use crate::reader::read;
use crate::refusal::Refusal;

pub fn run(words: &[&str]) -> Outcome {
    let file = || standard_input(limits::BYTES_READ as u64);
    match words {
        ["refusal"] => text_or_refusal(read(&file()).map(|_| "accepted\n".to_string())),
        ["to-text"] => text_or_refusal(read(&file()).map(|accepted| to_text(&accepted.instrument))),
        _ => {
            let question = Question::of(&words.join(" ")).ok_or_else(usage)?;
            Ok(answer::text(question, &Queries::of(&file())).into_bytes())
        }
    }
}

/// The file of a text.
pub fn to_file(text: &[u8]) -> Outcome {
    let text = String::from_utf8_lossy(text);
    match from_text(&text) {
        Ok(instrument) => Ok(write(&instrument)),
        Err(error) => Err((error.to_string(), 1)),
    }
}

fn text_or_refusal(result: Result<String, Refusal>) -> Outcome {
    let text = result.unwrap_or_else(|refusal| refusal_line(refusal) + "\n");
    Ok(text.into_bytes())
}
