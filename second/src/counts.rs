//! What a self-check has looked at, by name.

use std::collections::BTreeMap;
use std::fmt;

#[derive(Clone, Debug, Default, PartialEq, Eq)]
pub struct Counts {
    counts: BTreeMap<String, u64>,
}

impl Counts {
    pub fn add(&mut self, name: &str, number: usize) {
        *self.counts.entry(name.to_string()).or_insert(0) += number as u64;
    }

    pub fn of(&self, name: &str) -> u64 {
        self.counts.get(name).copied().unwrap_or(0)
    }
}

impl fmt::Display for Counts {
    fn fmt(&self, f: &mut fmt::Formatter) -> fmt::Result {
        for (name, number) in &self.counts {
            writeln!(f, "{name}: {number}")?;
        }
        Ok(())
    }
}
