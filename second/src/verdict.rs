//! The verdict and its stages. Document 01, "Verdict and listing".

use crate::bench::Bench;
use crate::refusal::Refusal;
use crate::word::bit;

#[derive(Clone, Copy, Debug, PartialEq, Eq)]
pub enum Stage {
    Marks,
    Merged,
}

#[derive(Clone, Copy, Debug, PartialEq, Eq)]
pub struct Verdict {
    pub holds: bool,
    pub stage: Stage,
}

impl Verdict {
    /// The verdict and its stage as the listing prints them.
    pub fn text(&self) -> String {
        let holds = if self.holds { "holds" } else { "fails" };
        let stage = match self.stage {
            Stage::Marks => "marks",
            Stage::Merged => "merged",
        };
        format!("{holds} {stage}")
    }
}

/// 12 is given only if marks do not decide.
pub fn verdict(bench: &Bench) -> Result<Verdict, Refusal> {
    let starts = &bench.instrument.starts;
    if starts.iter().any(|start| has_fail(bench, start)) {
        return Ok(Verdict { holds: false, stage: Stage::Marks });
    }
    if starts.iter().all(|start| has_pass(bench, start)) {
        return Ok(Verdict { holds: true, stage: Stage::Marks });
    }
    let words = bench.merged_words.as_ref().map_err(|&refusal| refusal)?;
    let root = bench.instrument.root();
    let satisfied = |start: &Vec<usize>| bit(u64::from(words[bench.merged_index(start)]), root);
    Ok(Verdict { holds: starts.iter().all(satisfied), stage: Stage::Merged })
}

/// Whether some component marks its state of the start PASS of the root.
fn has_pass(bench: &Bench, start: &[usize]) -> bool {
    let root = bench.instrument.root();
    (0..start.len()).any(|c| bench.marks[c][root].pass[start[c]])
}

/// Whether some component marks its state of the start FAIL of the root.
fn has_fail(bench: &Bench, start: &[usize]) -> bool {
    let root = bench.instrument.root();
    (0..start.len()).any(|c| bench.marks[c][root].fail[start[c]])
}
