//! One stored case.

use crate::limits;
use crate::reader::read;

pub struct Case {
    /// Lowercase letters, digits and `_`; at most 16 characters.
    pub name: String,
    pub file: Vec<u8>,
    /// The lines that are asked, without their ends.
    pub questions: Vec<String>,
}

impl Case {
    /// Asks everything about a file: the questions without numbers, a lookup for
    /// each of the combined states, a stretch for every component and for two
    /// that are not there.
    pub fn of(name: &str, file: Vec<u8>, states: &[[u32; 4]]) -> Case {
        let alone = ["full", "marks", "classes", "merged", "listing", "verdict"];
        let lookup = |[a, b, c, d]: &[u32; 4]| format!("lookup {a} {b} {c} {d}");
        let mut case = Case { name: name.to_string(), file, questions: Vec::new() };
        case.questions.extend(alone.map(String::from));
        case.questions.extend(states.iter().map(lookup));
        let components = (0..=case.components()).chain([u32::MAX]);
        case.questions.extend(components.map(|c| format!("stretch {c}")));
        case
    }

    /// The bytes that are read of the file.
    pub fn read(&self) -> &[u8] {
        &self.file[..self.file.len().min(limits::BYTES_READ)]
    }

    /// The number of components, 0 for a refused file.
    fn components(&self) -> u32 {
        read(self.read()).map_or(0, |accepted| accepted.instrument.tables.len() as u32)
    }
}
