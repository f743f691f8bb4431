//! Good instruments from a seed.

mod formula;
mod lamps;
mod shapes;
mod stays;
mod tables;

use crate::instrument::{Instrument, Node, Table};
use crate::limits;
use crate::marks::marks;
use crate::prng::Prng;
use crate::reading::Reading;
use formula::formula;
use lamps::{add_lamps, list_all};
pub use shapes::{
    at_limits, large_alike, large_different, large_listed, medium, small, tiny, two_wide, wide,
    widest, Shape,
};
use stays::{add_stays, respell};
pub use tables::random_table;
use tables::{change_one_set, listed_inputs, make_dense, with_duplicates};

/// An instrument of a shape that is itself drawn; most are small.
pub fn instrument(prng: &mut Prng) -> Instrument {
    let shape = match prng.below(1000) {
        0..=399 => tiny(prng),
        400..=859 => small(prng),
        860..=949 => medium(prng),
        950..=970 => wide(prng),
        971 => two_wide(prng),
        972..=981 => large_alike(prng),
        982..=989 => large_different(prng),
        990..=996 => large_listed(prng),
        _ => at_limits(prng),
    };
    with_lamps(prng, &shape, 35)
}

/// An instrument of the shape, some with further stays, and stays written both
/// ways. Both are drawn aside, so that all other draws are as without them.
pub fn instrument_of(prng: &mut Prng, shape: &Shape) -> Instrument {
    with_lamps(prng, shape, 0)
}

/// The same with further lamps.
pub fn lamps_of(prng: &mut Prng, shape: &Shape) -> Instrument {
    with_lamps(prng, shape, 100)
}

/// The same, where about this many of a hundred instruments get further lamps. They
/// are drawn aside too.
fn with_lamps(prng: &mut Prng, shape: &Shape, percentage: usize) -> Instrument {
    let mut instrument = without_empty_sets(prng, shape);
    let mut aside = prng.aside();
    add_stays(&mut aside, &mut instrument);
    respell(&mut aside, &mut instrument);
    if aside.percent(percentage) {
        add_lamps(&mut aside, &mut instrument);
    }
    if shape.all_listed {
        list_all(&mut aside, &mut instrument);
    }
    instrument
}

/// The same without further stays.
pub fn respelled_of(prng: &mut Prng, shape: &Shape) -> Instrument {
    let mut instrument = without_empty_sets(prng, shape);
    respell(&mut prng.aside(), &mut instrument);
    instrument
}

/// An instrument of the shape: each signal is driven by one component or is
/// external. Every stay is spelled out.
pub fn without_empty_sets(prng: &mut Prng, shape: &Shape) -> Instrument {
    let components = shape.sizes.len();
    let mut outputs = vec![Vec::new(); components];
    for signal in 0..shape.signals {
        // About a fifth of the signals are external.
        let c = prng.below(components);
        if !prng.percent(20) && outputs[c].len() < limits::OUTPUTS {
            outputs[c].push(signal);
        }
    }
    let mut tables = Vec::new();
    for (own_outputs, &states) in outputs.iter().zip(&shape.sizes) {
        let inputs = listed_inputs(prng, shape, own_outputs);
        let different = shape.different_states.min(states);
        let table = random_table(prng, different, inputs, own_outputs.clone());
        let mut table = with_duplicates(prng, &table, states);
        if prng.percent(30) {
            change_one_set(prng, &mut table);
        }
        if shape.dense_sets > 0 {
            make_dense(prng, &mut table, shape.dense_sets);
        }
        tables.push(table);
    }
    let driven: Vec<usize> = outputs.into_iter().flatten().collect();
    let nodes = chosen_formula(prng, &tables, &driven, shape.nodes);
    let starts = starts(prng, &tables, &nodes, shape.starts);
    Instrument { signals: shape.signals, tables, nodes, starts }
}

/// Mostly a formula whose root leaves some combined state without a mark, where
/// one is found in a few attempts.
fn chosen_formula(prng: &mut Prng, tables: &[Table], driven: &[usize], count: usize) -> Vec<Node> {
    let mut nodes = formula(prng, driven, count);
    let attempts = if prng.percent(70) { 8 } else { 0 };
    for _ in 0..attempts {
        if !unmarked_states(tables, &nodes).iter().any(|states| states.is_empty()) {
            break;
        }
        nodes = formula(prng, driven, count);
    }
    nodes
}

/// For each component, the states that are neither PASS nor FAIL of the root.
fn unmarked_states(tables: &[Table], nodes: &[Node]) -> Vec<Vec<usize>> {
    let mut unmarked = Vec::new();
    for table in tables {
        let marks = marks(table, nodes, Reading::Document);
        let root = &marks[nodes.len() - 1];
        let states = 0..table.states();
        unmarked.push(states.filter(|&s| !root.pass[s] && !root.fail[s]).collect());
    }
    unmarked
}

/// Random starts, some of them repeated; half of the lists have states without
/// a mark where there are any.
fn starts(prng: &mut Prng, tables: &[Table], nodes: &[Node], count: usize) -> Vec<Vec<usize>> {
    let unmarked = unmarked_states(tables, nodes);
    let prefer_unmarked = prng.percent(50);
    let mut starts: Vec<Vec<usize>> = Vec::new();
    for _ in 0..count {
        if !starts.is_empty() && prng.percent(20) {
            let repeated = prng.one_of(&starts).clone();
            starts.push(repeated);
            continue;
        }
        let mut start = Vec::new();
        for (c, table) in tables.iter().enumerate() {
            let any = prng.below(table.states());
            let wanted = prefer_unmarked && !unmarked[c].is_empty();
            start.push(if wanted { *prng.one_of(&unmarked[c]) } else { any });
        }
        starts.push(start);
    }
    starts
}
