//! Relations: an equivalence at every node; related states have the same marks.

use super::{Checked, Violation};
use crate::counts::Counts;
use crate::relation::Relation;

pub fn check(checked: &Checked, counts: &mut Counts) -> Result<(), Violation> {
    for (c, relations) in checked.queries.bench.relations.iter().enumerate() {
        for (k, relation) in relations.iter().enumerate() {
            check_equivalence(relation)
                .map_err(|what| format!("component {c} node {k}: the relation is not {what}"))?;
            check_same_marks(checked, c, k, relation)?;
            counts.add("relations", 1);
            let pairs = relation.iter().flatten().filter(|&&related| related).count();
            counts.add("related pairs of different states", pairs - relation.len());
        }
    }
    Ok(())
}

fn check_equivalence(relation: &Relation) -> Result<(), &'static str> {
    let states = 0..relation.len();
    for x in states.clone() {
        if !relation[x][x] {
            return Err("reflexive");
        }
        for y in states.clone() {
            if relation[x][y] != relation[y][x] {
                return Err("symmetric");
            }
            for z in states.clone() {
                if relation[x][y] && relation[y][z] && !relation[x][z] {
                    return Err("transitive");
                }
            }
        }
    }
    Ok(())
}

fn check_same_marks(
    checked: &Checked,
    c: usize,
    k: usize,
    relation: &Relation,
) -> Result<(), Violation> {
    let marks = &checked.queries.bench.marks[c][k];
    for (x, related) in relation.iter().enumerate() {
        for (y, &is_related) in related.iter().enumerate() {
            let same = marks.pass[x] == marks.pass[y] && marks.fail[x] == marks.fail[y];
            if is_related && !same {
                return Err(format!(
                    "component {c} node {k}: {x} and {y} are related but not marked alike"
                ));
            }
        }
    }
    Ok(())
}
