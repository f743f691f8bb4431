//! Classes of related states. Document 01, "Classes".

use crate::relation::Relation;

/// For each state, the name of its class: the lowest state related to it.
pub fn class_names(relation: &Relation) -> Vec<usize> {
    let states = relation.len();
    let lowest =
        |s: usize| (0..states).find(|&t| relation[s][t]).expect("a state is related to itself");
    (0..states).map(lowest).collect()
}

/// The classes in ascending order of their names, each as its member states.
pub fn classes(names: &[usize]) -> Vec<Vec<usize>> {
    let states = 0..names.len();
    let mut classes = Vec::new();
    for name in states.clone() {
        let members: Vec<usize> = states.clone().filter(|&s| names[s] == name).collect();
        if !members.is_empty() {
            classes.push(members);
        }
    }
    classes
}
