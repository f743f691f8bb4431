//! The listing's text. Document 01, "Verdict and listing".

use crate::bench::Bench;
use crate::combination;
use crate::refusal::Refusal;
use crate::verdict::verdict;

/// The text, each line ended by byte 10. Refused as the verdict is.
pub fn listing(bench: &Bench) -> Result<String, Refusal> {
    let verdict = verdict(bench)?;
    let mut text = format!("verdict {}\n", verdict.text());
    for c in 0..bench.names.len() {
        text += &class_line(bench, c);
        text += "\n";
    }
    let merged = combination::size(&bench.merged_tables);
    let full = combination::size(&bench.instrument.tables);
    text += &format!("merged {merged} of {full}\n");
    Ok(text)
}

/// `component C classes ..`: a class name per state.
pub fn class_line(bench: &Bench, c: usize) -> String {
    let mut line = format!("component {c} classes");
    for name in &bench.names[c] {
        line += &format!(" {name}");
    }
    line
}

/// The one line of a refusal.
pub fn refusal_line(refusal: Refusal) -> String {
    format!("refused {}", refusal.number())
}
