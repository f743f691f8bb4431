//! How large a drawn instrument is to be.

use crate::limits;
use crate::prng::Prng;

/// How large an instrument is to be.
pub struct Shape {
    /// The number of states of each component.
    pub sizes: Vec<usize>,
    pub signals: usize,
    /// No component lists more inputs than this.
    pub inputs: usize,
    pub nodes: usize,
    pub starts: usize,
    /// No component has more different states than this before states are
    /// duplicated.
    pub different_states: usize,
    /// Of a hundred successor sets, about this many hold half of all states.
    pub dense_sets: usize,
    /// Every output is listed by another component, where one has room for it.
    pub all_listed: bool,
}

/// At most six combined states, so that lassos can be listed.
pub fn tiny(prng: &mut Prng) -> Shape {
    #[rustfmt::skip]
    let choices: [&[usize]; 15] = [
        &[1], &[2], &[3], &[5], &[6],
        &[2, 2], &[2, 2], &[2, 3], &[2, 3], &[3, 2], &[3, 2], &[1, 4],
        &[3, 1, 2], &[1, 2, 3], &[2, 1, 2],
    ];
    let sizes = prng.one_of(&choices).to_vec();
    Shape {
        sizes,
        signals: if prng.percent(10) { 0 } else { prng.between(2, 5) },
        inputs: 2,
        nodes: prng.between(1, 8),
        starts: start_count(prng),
        different_states: prng.between(1, 6),
        dense_sets: 0,
        all_listed: false,
    }
}

/// At most forty combined states.
pub fn small(prng: &mut Prng) -> Shape {
    Shape {
        sizes: sizes_up_to(prng, 5, 40),
        signals: prng.between(2, 7),
        inputs: 2,
        nodes: prng.between(1, 12),
        starts: start_count(prng),
        different_states: prng.between(2, 5),
        dense_sets: 0,
        all_listed: false,
    }
}

/// At most three hundred combined states, all kinds of sizes.
pub fn medium(prng: &mut Prng) -> Shape {
    Shape {
        sizes: sizes_up_to(prng, 10, 300),
        signals: prng.between(2, 9),
        inputs: 3,
        nodes: prng.between(4, limits::NODES),
        starts: start_count(prng),
        different_states: prng.between(2, 6),
        dense_sets: 0,
        all_listed: false,
    }
}

/// More than 4,096 combined states, of which few are different, so that the
/// merged combination is often small.
pub fn large_alike(prng: &mut Prng) -> Shape {
    let sizes = if prng.percent(50) {
        (0..3).map(|_| prng.between(17, 19)).collect()
    } else {
        (0..4).map(|_| prng.between(9, 10)).collect()
    };
    Shape {
        sizes,
        signals: prng.between(3, 6),
        inputs: 1,
        nodes: prng.between(2, 7),
        starts: start_count(prng),
        different_states: prng.between(2, 4),
        dense_sets: 0,
        all_listed: false,
    }
}

/// More than 4,096 combined states, all of them different.
pub fn large_different(prng: &mut Prng) -> Shape {
    Shape {
        sizes: (0..3).map(|_| prng.between(22, limits::STATES)).collect(),
        signals: prng.between(3, 6),
        inputs: 1,
        nodes: prng.between(4, 8),
        starts: start_count(prng),
        different_states: limits::STATES,
        dense_sets: 0,
        all_listed: false,
    }
}

/// The same; no output is a lamp, so that the merged combination is often large.
pub fn large_listed(prng: &mut Prng) -> Shape {
    Shape { all_listed: true, ..large_different(prng) }
}

/// A component of more than 32 states, alone or beside up to three small ones.
pub fn wide(prng: &mut Prng) -> Shape {
    let states = wide_size(prng);
    beside_small_ones(prng, states)
}

/// A component of 64 states, alone or beside up to three small ones.
pub fn widest(prng: &mut Prng) -> Shape {
    Shape { different_states: limits::STATES, ..beside_small_ones(prng, limits::STATES) }
}

/// A component of so many states, at any place among up to three small ones.
fn beside_small_ones(prng: &mut Prng, states: usize) -> Shape {
    let components = prng.between(1, limits::COMPONENTS);
    let mut sizes: Vec<usize> = (0..components).map(|_| prng.between(1, 4)).collect();
    sizes[prng.below(components)] = states;
    Shape {
        sizes,
        signals: prng.between(2, 6),
        inputs: 2,
        nodes: prng.between(2, 12),
        starts: start_count(prng),
        different_states: prng.between(4, limits::STATES),
        dense_sets: *prng.one_of(&[0, 0, 5, 40]),
        all_listed: false,
    }
}

/// Two components of more than 32 states.
pub fn two_wide(prng: &mut Prng) -> Shape {
    Shape {
        sizes: vec![wide_size(prng), wide_size(prng)],
        signals: prng.between(3, 6),
        inputs: 1,
        nodes: prng.between(4, 8),
        starts: start_count(prng),
        different_states: prng.between(3, limits::STATES),
        dense_sets: 0,
        all_listed: false,
    }
}

/// A number of states above 32, a fourth of the time the largest.
fn wide_size(prng: &mut Prng) -> usize {
    if prng.percent(25) {
        limits::STATES
    } else {
        prng.between(33, limits::STATES)
    }
}

/// Some counts at the limits of document 01.
pub fn at_limits(prng: &mut Prng) -> Shape {
    let components = prng.between(1, limits::COMPONENTS);
    let mut sizes: Vec<usize> = (0..components).map(|_| prng.between(1, 3)).collect();
    sizes[0] = limits::STATES;
    Shape {
        sizes,
        signals: limits::SIGNALS,
        inputs: limits::INPUTS,
        nodes: limits::NODES,
        starts: limits::STARTS,
        different_states: prng.between(2, 8),
        dense_sets: 0,
        all_listed: false,
    }
}

fn start_count(prng: &mut Prng) -> usize {
    match prng.below(10) {
        0 => 0,
        1..=8 => prng.between(1, 3),
        _ => prng.between(4, 12),
    }
}

/// Sizes of 1 to 4 components, each at most `largest`, their product at most `product`.
fn sizes_up_to(prng: &mut Prng, largest: usize, product: usize) -> Vec<usize> {
    let components = if prng.percent(12) { 1 } else { prng.between(2, limits::COMPONENTS) };
    let mut sizes = Vec::new();
    let mut rest = product;
    for _ in 0..components {
        let size = prng.between(1.max(largest.min(rest) / 2), largest.min(rest));
        sizes.push(size);
        rest /= size;
    }
    sizes
}
