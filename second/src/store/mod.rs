//! Stored cases: instrument files, questions and the expected output.
//! README.md describes the folder.

mod bench_cases;
mod case;
mod folder;
mod lamp_cases;
mod output;
mod random_cases;
mod reading_cases;
pub mod refusal_cases;
mod stay_cases;
mod wide_rows;

pub use case::Case;
pub use folder::{compare, store};
pub use output::{output, output_under};

/// All cases, in the order of `args`.
pub fn cases() -> Vec<Case> {
    let mut cases = bench_cases::cases();
    cases.extend(stay_cases::cases());
    cases.extend(lamp_cases::cases());
    cases.extend(refusal_cases::cases());
    cases.extend(reading_cases::cases());
    cases.extend(random_cases::cases());
    cases
}
