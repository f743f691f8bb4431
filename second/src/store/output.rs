//! The expected output of a case, as README.md describes it.

use super::Case;
use crate::answer::answer;
use crate::queries::Queries;
use crate::reading::Reading;

/// The text of a case.
pub fn output(case: &Case) -> String {
    output_under(case, Reading::Document)
}

/// The same under a given reading of document 01.
pub fn output_under(case: &Case, reading: Reading) -> String {
    let queries = Queries::under(case.read(), reading);
    let mut text = format!("case {}\n", case.name);
    for line in &case.questions {
        text += &format!("query {line}\n");
        text += &answer(line, &queries);
    }
    text
}
