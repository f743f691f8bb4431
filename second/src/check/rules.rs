//! The rules of marks and classes written a second time, from document 01 only
//! and without any search, so that both writings can be compared.

use crate::instrument::{Node, Table};
use crate::marks::Marks;
use crate::relation::Relation;

/// Whether marks of true, signal, not and or, and PASS of EX, are as document 01
/// says, given those of the earlier nodes. Other marks are judged elsewhere.
pub fn simple_marks_right(table: &Table, node: &Node, marks: &[Marks], own: &Marks) -> bool {
    (0..table.states()).all(|s| {
        let mark = (own.pass[s], own.fail[s]);
        match *node {
            Node::True => mark == (true, false),
            Node::Signal(signal) => match table.outputs.iter().position(|&o| o == signal) {
                None => mark == (false, false),
                Some(j) if table.levels[s][j] => mark == (true, false),
                Some(_) => mark == (false, true),
            },
            Node::Not(a) => mark == (marks[a].fail[s], marks[a].pass[s]),
            Node::Or(a, b) => {
                let (first, second) = (&marks[a], &marks[b]);
                mark == (first.pass[s] | second.pass[s], first.fail[s] & second.fail[s])
            }
            Node::Ex(a) => own.pass[s] == no_assignment_without(table, s, &marks[a].pass),
            Node::Eg(_) | Node::Eu(_, _) => true,
        }
    })
}

/// Whether the state goes to t on the assignment: t is a member of the written
/// set, or there is none and t is the state. Document 02, 2/14.
pub fn goes(table: &Table, state: usize, assignment: usize, t: usize) -> bool {
    let written = &table.sets.as_written()[state][assignment];
    written.contains(&t) || (t == state && written.is_empty())
}

/// Whether no assignment is without a successor in the set.
pub fn no_assignment_without(table: &Table, state: usize, set: &[bool]) -> bool {
    let mut without = 0;
    for assignment in 0..table.assignments() {
        let into = (0..set.len()).any(|t| set[t] && goes(table, state, assignment, t));
        without += usize::from(!into);
    }
    without == 0
}

/// The rule of one node for pairs of states of one component.
pub struct Rule<'a> {
    pub table: &'a Table,
    /// The tables before and after this one in the file.
    pub others: [&'a [Table]; 2],
    pub node: Node,
    /// Marks of the node itself.
    pub own: &'a Marks,
    /// Marks of the earlier nodes.
    pub marks: &'a [Marks],
    /// The largest relations for the earlier nodes.
    pub earlier: &'a [Relation],
}

impl Rule<'_> {
    /// Whether every pair of the relation keeps the rule.
    pub fn kept_by(&self, relation: &Relation) -> bool {
        for x in 0..relation.len() {
            for y in 0..relation.len() {
                if relation[x][y] && !self.kept_by_pair(relation, x, y) {
                    return false;
                }
            }
        }
        true
    }

    fn kept_by_pair(&self, relation: &Relation, x: usize, y: usize) -> bool {
        for operand in self.node.operands() {
            if !self.earlier[operand][x][y] {
                return false;
            }
        }
        match self.node {
            Node::True | Node::Not(_) | Node::Or(_, _) => true,
            Node::Signal(signal) => match self.table.outputs.iter().position(|&o| o == signal) {
                None => true,
                Some(j) => self.table.levels[x][j] == self.table.levels[y][j],
            },
            Node::Ex(a) => {
                self.marked_alike(x, y)
                    || self.same_outputs_and_steps(&self.marks[a].fail, &self.earlier[a], x, y)
            }
            Node::Eg(_) | Node::Eu(_, _) => {
                self.marked_alike(x, y)
                    || self.same_outputs_and_steps(&self.own.fail, relation, x, y)
            }
        }
    }

    /// Both PASS, or both FAIL, of the node.
    fn marked_alike(&self, x: usize, y: usize) -> bool {
        let both_pass = self.own.pass[x] && self.own.pass[y];
        let both_fail = self.own.fail[x] && self.own.fail[y];
        both_pass || both_fail
    }

    fn same_outputs_and_steps(
        &self,
        fail: &[bool],
        related: &Relation,
        x: usize,
        y: usize,
    ) -> bool {
        let states = 0..self.table.states();
        for assignment in 0..self.table.assignments() {
            let of = |s: usize| states.clone().filter(move |&t| goes(self.table, s, assignment, t));
            for t in of(x) {
                if !fail[t] && !of(y).any(|w| related[t][w]) {
                    return false;
                }
            }
            for w in of(y) {
                if !fail[w] && !of(x).any(|t| related[t][w]) {
                    return false;
                }
            }
        }
        !self.told_apart(x, y)
    }

    /// Whether another component can tell the states apart: one of its listed inputs
    /// is driven to different levels. Document 02, 3/14.
    fn told_apart(&self, x: usize, y: usize) -> bool {
        for other in self.others.into_iter().flatten() {
            for input in &other.inputs {
                let own = self.table.outputs.iter().position(|output| output == input);
                if own.is_some_and(|j| self.table.levels[x][j] != self.table.levels[y][j]) {
                    return true;
                }
            }
        }
        false
    }
}
