//! When two states of a component are related for a node. Document 01, "Classes",
//! and document 02, 3/14.

use crate::instrument::{Node, Table};
use crate::marks::Marks;
use crate::reading::Reading;

/// `related[x][y]`: whether the states x and y are related.
pub type Relation = Vec<Vec<bool>>;

/// What the rule of a node looks at: a component's table, its marks, the outputs
/// that are compared, and the relations for the earlier nodes.
pub struct Component<'a> {
    pub table: &'a Table,
    /// For each output, whether the rule of EX, EG and EU compares it.
    pub compared: &'a [bool],
    pub nodes: &'a [Node],
    pub marks: &'a [Marks],
    pub reading: Reading,
}

/// The largest relation for every node: start from all pairs and delete pairs
/// that do not keep the node's rule until nothing changes.
pub fn relations(component: &Component) -> Vec<Relation> {
    let mut relations = Vec::new();
    for k in 0..component.nodes.len() {
        let largest = largest_relation(component, k, &relations);
        relations.push(largest);
    }
    relations
}

fn largest_relation(component: &Component, k: usize, earlier: &[Relation]) -> Relation {
    let states = component.table.states();
    let mut relation = vec![vec![true; states]; states];
    if component.reading == Reading::EveryStateAlone {
        return (0..states).map(|x| (0..states).map(|y| x == y).collect()).collect();
    }
    loop {
        let mut changed = false;
        for x in 0..states {
            for y in 0..states {
                if relation[x][y] && !keeps_rule(component, k, earlier, &relation, x, y) {
                    relation[x][y] = false;
                    changed = true;
                }
            }
        }
        if !changed || component.reading == Reading::OneRound {
            return relation;
        }
    }
}

/// Whether the pair x, y keeps the rule of node k, where `earlier` are the
/// relations for the earlier nodes and `relation` is one for node k itself.
fn keeps_rule(
    component: &Component,
    k: usize,
    earlier: &[Relation],
    relation: &Relation,
    x: usize,
    y: usize,
) -> bool {
    let node = component.nodes[k];
    let own = &component.marks[k];
    let operands_related = node.operands().iter().all(|&a| earlier[a][x][y]);
    let first_need = operands_related || component.reading == Reading::WithoutOperandRelation;
    let both_marked = ((own.pass[x] && own.pass[y]) || (own.fail[x] && own.fail[y]))
        && component.reading != Reading::WithoutBothMarked;
    match node {
        Node::True => true,
        Node::Signal(signal) => same_level(component, signal, x, y),
        Node::Not(_) | Node::Or(_, _) => operands_related,
        Node::Ex(a) => {
            let matched = || steps_match(component, &component.marks[a].fail, &earlier[a], x, y);
            first_need && (both_marked || matched())
        }
        Node::Eg(a) if component.reading == Reading::EgMatchedByOperand => {
            let matched = || steps_match(component, &component.marks[a].fail, &earlier[a], x, y);
            first_need && (both_marked || matched())
        }
        Node::Eg(_) | Node::Eu(_, _) => {
            let matched = || steps_match(component, &own.fail, relation, x, y);
            first_need && (both_marked || matched())
        }
    }
}

/// Whether the signal is foreign, or x and y drive it to the same level. It does not
/// matter who reads it.
fn same_level(component: &Component, signal: usize, x: usize, y: usize) -> bool {
    let table = component.table;
    let Some(j) = table.outputs.iter().position(|&output| output == signal) else {
        return true;
    };
    if component.reading == Reading::SignalNodeOfReadOnly && !component.compared[j] {
        return true;
    }
    table.levels[x][j] == table.levels[y][j]
}

/// Equal levels of the compared outputs, and on every assignment each successor of
/// either that is not FAIL has a related successor of the other.
fn steps_match(
    component: &Component,
    fail: &[bool],
    relation: &Relation,
    x: usize,
    y: usize,
) -> bool {
    let table = component.table;
    let equal = |j: usize| table.levels[x][j] == table.levels[y][j];
    if !(0..table.outputs.len()).all(|j| !component.compared[j] || equal(j)) {
        return false;
    }
    let exempt = |t: usize| fail[t] && component.reading != Reading::FailSuccessorsMatched;
    (0..table.assignments()).all(|assignment| {
        let of_x = table.successors(x, assignment, component.reading);
        let of_y = table.successors(y, assignment, component.reading);
        let x_matched = of_x.iter().all(|&t| exempt(t) || of_y.iter().any(|&w| relation[t][w]));
        let y_matched = of_y.iter().all(|&w| exempt(w) || of_x.iter().any(|&t| relation[t][w]));
        x_matched && y_matched
    })
}
