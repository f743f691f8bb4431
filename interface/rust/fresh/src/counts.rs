//! What was compared, counted by name.

use std::collections::BTreeMap;

#[derive(Default)]
pub struct Counts {
    of: BTreeMap<String, u64>,
}

impl Counts {
    pub fn add(&mut self, name: &str, more: u64) {
        *self.of.entry(name.to_string()).or_default() += more;
    }

    pub fn text(&self) -> String {
        self.of.iter().map(|(name, count)| format!("{name}: {count}\n")).collect()
    }
}
