//! Everything the integration bench needs of one instrument: marks, relations,
//! classes and merged tables, each computed once from the delivered tables.

use crate::classes::{class_names, classes};
use crate::combination;
use crate::instrument::{Instrument, Table};
use crate::lamps::compared_outputs;
use crate::marks::{marks, Marks};
use crate::merged::{merged_table, Merged};
use crate::reading::Reading;
use crate::refusal::Refusal;
use crate::relation::{relations, Component, Relation};

pub struct Bench {
    pub instrument: Instrument,
    /// By component and node.
    pub marks: Vec<Vec<Marks>>,
    /// By component and node.
    pub relations: Vec<Vec<Relation>>,
    /// Class names at the root, by component and state.
    pub names: Vec<Vec<usize>>,
    /// Classes at the root, by component.
    pub classes: Vec<Vec<Vec<usize>>>,
    pub merged_tables: Vec<Table>,
    /// Words by merged state, or 12.
    pub merged_words: Result<Vec<u32>, Refusal>,
}

impl Bench {
    pub fn of(instrument: &Instrument, reading: Reading) -> Bench {
        let nodes = &instrument.nodes;
        let mut bench = Bench {
            instrument: instrument.clone(),
            marks: vec![],
            relations: vec![],
            names: vec![],
            classes: vec![],
            merged_tables: vec![],
            merged_words: Ok(vec![]),
        };
        for (c, table) in instrument.tables.iter().enumerate() {
            let marks = marks(table, nodes, reading);
            let compared = &compared_outputs(&instrument.tables, c, reading);
            let relations =
                relations(&Component { table, compared, nodes, marks: &marks, reading });
            let names = class_names(&relations[instrument.root()]);
            let classes = classes(&names);
            bench.merged_tables.push(merged_table(table, &classes, reading));
            bench.marks.push(marks);
            bench.relations.push(relations);
            bench.names.push(names);
            bench.classes.push(classes);
        }
        bench.merged_words = bench.compute_merged_words(reading);
        bench
    }

    fn compute_merged_words(&self, reading: Reading) -> Result<Vec<u32>, Refusal> {
        let merged = Merged {
            instrument: &self.instrument,
            marks: &self.marks,
            classes: &self.classes,
            tables: &self.merged_tables,
            reading,
        };
        merged.words()
    }

    /// The index of the merged state made of the classes of the states.
    pub fn merged_index(&self, states: &[usize]) -> usize {
        let mut class_numbers = Vec::new();
        for (c, state) in states.iter().enumerate() {
            let holds = |members: &Vec<usize>| members.contains(state);
            let number = self.classes[c].iter().position(holds);
            class_numbers.push(number.expect("every state is in a class"));
        }
        combination::index(&self.merged_tables, &class_numbers)
    }
}
