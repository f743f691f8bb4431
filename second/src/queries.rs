//! The queries on one file. Document 01, "Refused" for their order of refusals:
//! first the file's faults, then an asked component or state, then 11 or 12.

use std::ops::Range;

use crate::bench::Bench;
use crate::combination::{self, Combination};
use crate::limits;
use crate::listing::listing;
use crate::reader::read;
use crate::reading::Reading;
use crate::refusal::Refusal;
use crate::truth::truth;
use crate::verdict::{verdict, Verdict};
use crate::word::{bit, word_of, word_of_nodes};

/// An accepted file with what the bench computed of it.
pub struct Queries {
    file: Vec<u8>,
    stretches: Vec<Range<usize>>,
    reading: Reading,
    pub bench: Bench,
}

impl Queries {
    /// Reads the file, or answers its first fault.
    pub fn of(file: &[u8]) -> Result<Queries, Refusal> {
        Queries::under(file, Reading::Document)
    }

    /// The same under a given reading of document 01.
    pub fn under(file: &[u8], reading: Reading) -> Result<Queries, Refusal> {
        let accepted = read(file)?;
        let bench = Bench::of(&accepted.instrument, reading);
        Ok(Queries { file: file.to_vec(), stretches: accepted.stretches, reading, bench })
    }

    /// A word per index, bit k the truth of node k; 11 if there are too many.
    pub fn full(&self) -> Result<Vec<u32>, Refusal> {
        let instrument = &self.bench.instrument;
        if combination::size(&instrument.tables) > limits::COMBINED_STATES {
            return Err(Refusal::FullTooLarge);
        }
        let combination = Combination::of(&instrument.tables, instrument.signals, self.reading);
        let truth = truth(&combination, &instrument.nodes, self.reading);
        let bits = |i: usize| truth.iter().map(|node| node[i]).collect::<Vec<bool>>();
        Ok((0..combination.size()).map(|i| word_of_nodes(&bits(i))).collect())
    }

    /// Two words for every component and node, PASS then FAIL, components outermost.
    pub fn marks(&self) -> Vec<u64> {
        let mut words = Vec::new();
        for component in &self.bench.marks {
            for marks in component {
                words.push(word_of(&marks.pass));
                words.push(word_of(&marks.fail));
            }
        }
        words
    }

    /// One byte per state, components in order: the name of its class.
    pub fn classes(&self) -> Vec<u8> {
        let byte = |name: &usize| u8::try_from(*name).expect("a state number is below 64");
        self.bench.names.iter().flatten().map(byte).collect()
    }

    /// A word per merged state, or 12.
    pub fn merged(&self) -> Result<Vec<u32>, Refusal> {
        self.bench.merged_words.clone()
    }

    /// Whether the root is true in the asked combined state: four state numbers
    /// in component order, 0 past the last component, else 9; then 12.
    pub fn lookup(&self, asked: [u32; 4]) -> Result<bool, Refusal> {
        let tables = &self.bench.instrument.tables;
        for (c, &state) in asked.iter().enumerate() {
            let in_component = match tables.get(c) {
                Some(table) => (state as usize) < table.states(),
                None => state == 0,
            };
            if !in_component {
                return Err(Refusal::StateNotInComponent);
            }
        }
        let words = self.bench.merged_words.as_ref().map_err(|&refusal| refusal)?;
        let states: Vec<usize> = asked[..tables.len()].iter().map(|&s| s as usize).collect();
        let word = words[self.bench.merged_index(&states)];
        Ok(bit(u64::from(word), self.bench.instrument.root()))
    }

    pub fn verdict(&self) -> Result<Verdict, Refusal> {
        verdict(&self.bench)
    }

    /// The listing's text, refused as the verdict is.
    pub fn listing(&self) -> Result<String, Refusal> {
        listing(&self.bench)
    }

    /// The component's own stretch of the file; 3 if there is no such component.
    pub fn stretch(&self, component: u32) -> Result<&[u8], Refusal> {
        match self.stretches.get(component as usize) {
            Some(range) => Ok(&self.file[range.clone()]),
            None => Err(Refusal::CountOutsideRange),
        }
    }
}
