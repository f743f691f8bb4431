//! A component with its classes and marks, as it is drawn.

use std::borrow::Cow;

use second::instrument::{Instrument, Node, Table};
use second::lamps::read_outputs;
use second::reading::Reading;

use crate::answers::Answers;
use crate::palette::Fill;

#[derive(Clone, Copy, Debug, PartialEq, Eq)]
pub enum Mark {
    Pass,
    Fail,
    Neither,
}

pub struct Class {
    /// The lowest member.
    pub name: usize,
    pub members: Vec<usize>,
    pub fill: Fill,
}

pub struct Component {
    pub number: usize,
    pub table: Table,
    /// For each output, whether another component lists it as an input.
    pub read: Vec<bool>,
    pub nodes: Vec<Node>,
    /// Which nodes are the root or are reached from it through operands.
    pub under_root: Vec<bool>,
    /// In ascending order of their names.
    pub classes: Vec<Class>,
    /// For each state, the place of its class in `classes`.
    pub class_of: Vec<usize>,
    /// For each node and state.
    pub marks: Vec<Vec<Mark>>,
    /// Whether some start has the state.
    pub is_start: Vec<bool>,
}

impl Component {
    /// Every component of the instrument, with the answers about it.
    pub fn all(instrument: &Instrument, answers: &Answers) -> Result<Vec<Component>, String> {
        let count = instrument.tables.len();
        if answers.classes.len() != count || answers.marks.len() != count {
            return Err("the program answers for another number of components".to_string());
        }
        (0..count).map(|c| Component::of(instrument, answers, c)).collect()
    }

    fn of(instrument: &Instrument, answers: &Answers, c: usize) -> Result<Component, String> {
        let table = instrument.tables[c].clone();
        let names = &answers.classes[c];
        let words = &answers.marks[c];
        let is_name = |&name: &usize| names.get(name) == Some(&name);
        if names.len() != table.states() || !names.iter().all(is_name) {
            return Err(format!("the program's class names do not fit component {c}"));
        }
        if words.len() != instrument.nodes.len() {
            return Err(format!("the program's marks do not fit component {c}"));
        }
        let classes = classes(names);
        let place = |name: &usize| classes.iter().position(|class| class.name == *name);
        let class_of = names.iter().map(|name| place(name).expect("a class's name")).collect();
        let states = 0..table.states();
        let started = |s: usize| instrument.starts.iter().any(|start| start[c] == s);
        Ok(Component {
            number: c,
            read: read_outputs(&instrument.tables, c),
            nodes: instrument.nodes.clone(),
            under_root: instrument.under_root(),
            class_of,
            marks: words.iter().map(|&word| marks(word, table.states())).collect(),
            is_start: states.map(started).collect(),
            classes,
            table,
        })
    }

    pub fn root(&self) -> usize {
        self.nodes.len() - 1
    }

    pub fn class(&self, state: usize) -> &Class {
        &self.classes[self.class_of[state]]
    }

    /// The mark of the state at the root.
    pub fn root_mark(&self, state: usize) -> Mark {
        self.marks[self.root()][state]
    }

    /// The nodes that the classes depend on, in ascending order.
    pub fn nodes_under_root(&self) -> Vec<usize> {
        (0..self.nodes.len()).filter(|&k| self.under_root[k]).collect()
    }

    /// The states, members of one class next to each other.
    pub fn states_by_class(&self) -> Vec<usize> {
        self.classes.iter().flat_map(|class| class.members.clone()).collect()
    }

    /// Whether the classes depend on the j-th output: another component lists it, or a
    /// node under the root names it.
    pub fn is_seen(&self, j: usize) -> bool {
        let named = Node::Signal(self.table.outputs[j]);
        self.read[j] || self.nodes_under_root().iter().any(|&k| self.nodes[k] == named)
    }

    /// The outputs that are high in the state, by name.
    pub fn high_outputs(&self, state: usize) -> Vec<String> {
        let outputs = self.table.outputs.iter().zip(&self.table.levels[state]);
        outputs.filter(|(_, &high)| high).map(|(signal, _)| format!("s{signal}")).collect()
    }

    /// The successors of the state on the assignment; an empty set of the file is
    /// the state itself.
    fn successors(&self, state: usize, assignment: usize) -> Cow<'_, [usize]> {
        self.table.successors(state, assignment, Reading::Document)
    }

    /// On which assignments the state steps to the other.
    pub fn taken(&self, from: usize, to: usize) -> Vec<bool> {
        let assignments = 0..self.table.assignments();
        assignments.map(|assignment| self.successors(from, assignment).contains(&to)).collect()
    }
}

impl Component {
    /// On which assignments some member of a class steps into the other.
    pub fn merged_taken(&self, from: &Class, to: &Class) -> Vec<bool> {
        let into = |set: Cow<[usize]>| set.iter().any(|successor| to.members.contains(successor));
        let assignments = 0..self.table.assignments();
        assignments.map(|a| from.members.iter().any(|&s| into(self.successors(s, a)))).collect()
    }
}

/// Classes with several members get the first fills.
fn classes(names: &[usize]) -> Vec<Class> {
    let mut classes: Vec<Class> = Vec::new();
    for name in (0..names.len()).filter(|&s| names[s] == s) {
        let members = (0..names.len()).filter(|&s| names[s] == name).collect();
        classes.push(Class { name, members, fill: Fill(0) });
    }
    let mut next = 0;
    for several in [true, false] {
        for class in classes.iter_mut().filter(|class| (class.members.len() > 1) == several) {
            class.fill = Fill(next);
            next += 1;
        }
    }
    classes
}

fn marks((pass, fail): (u64, u64), states: usize) -> Vec<Mark> {
    let mark = |s: usize| match (pass >> s & 1, fail >> s & 1) {
        (1, _) => Mark::Pass,
        (_, 1) => Mark::Fail,
        _ => Mark::Neither,
    };
    (0..states).map(mark).collect()
}
