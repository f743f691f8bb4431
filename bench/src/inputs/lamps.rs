//! Chains with a blinking lamp, which no other component reads: two states for each place of a
//! chain, which are one class. And chains whose ends nobody reads, which merge to a few states.

use super::steady::{avoided, chains as steady_chains, told_apart};
use super::Input;
use second::instrument::{Instrument, Node, Table, WrittenSets};

/// From place to place, whatever is read, and stays at the end, where it drives signal c. In every
/// second step it drives the lamp, signal 4 + c.
fn blinking(c: usize, places: usize) -> Table {
    let end = places - 1;
    let next = |place: usize, lit: usize| 2 * (place + 1).min(end) + (1 - lit);
    let states = || (0..2 * places).map(|state| (state / 2, state % 2));
    Table {
        inputs: vec![8, 9, 10, 11],
        outputs: vec![c, 4 + c],
        levels: states().map(|(place, lit)| vec![place == end, lit == 1]).collect(),
        sets: WrittenSets::new(
            states().map(|(place, lit)| vec![vec![next(place, lit)]; 16]).collect(),
        ),
    }
}

/// Four chains of these places, started at 0.
fn chains(places: [usize; 4], nodes: Vec<Node>) -> Instrument {
    let tables = places.iter().enumerate().map(|(c, &places)| blinking(c, places)).collect();
    Instrument { signals: 12, tables, nodes, starts: vec![vec![0; 4]] }
}

/// Chains of which no component lists another's end as an input.
fn unread() -> Instrument {
    let mut instrument = steady_chains([8; 4], true, avoided());
    for table in instrument.tables.iter_mut() {
        table.inputs = vec![8, 9, 10, 11];
    }
    instrument
}

pub fn inputs() -> Vec<Input> {
    let of = |name: &str, places| Input::new(name, &chains(places, told_apart(24)));
    vec![
        of("lamps, chains 4 x 16, relations of EU, 24 nodes, 4,096 merged states", [8; 4]),
        of("lamps, chains 4 x 64, relations of EU, 24 nodes", [32; 4]),
        of("lamps, chains 64 x 64 x 4 x 4, 4,096 merged states", [32, 32, 2, 2]),
        Input::new("lamps, chains 4 x 8, marks of EG, ends unread, 2 merged states", &unread()),
    ]
}
