//! Instruments with lamps: outputs that no other component lists as an input.
//! Document 02, 3/14.

use super::counter;
use crate::instrument::{Instrument, Node, Table, WrittenSets};
use crate::reader::read;
use crate::word::{bit, power};

/// Two self-looping states that differ in lamp 0 only, beside a component that goes
/// to and fro and drives signal 1 in its state 0. The formula is EG of signal 1.
pub const UNREAD: [u8; 26] =
    [2, 2, 2, 0, 1, 0, 0, 1, 1, 2, 2, 0, 1, 1, 1, 0, 2, 1, 2, 1, 1, 5, 0, 1, 0, 0];

/// The same; the second component lists signal 0 as an input, and ignores it.
pub const LISTED: [u8; 29] =
    [2, 2, 2, 0, 1, 0, 0, 1, 1, 2, 2, 1, 0, 1, 1, 1, 0, 2, 2, 1, 1, 2, 1, 1, 5, 0, 1, 0, 0];

/// Signal 1 is true for ever, for each of the instruments of two components here.
pub const ALWAYS_1: [Node; 2] = [Node::Signal(1), Node::Eg(0)];

/// One of the two files with another formula.
pub fn with_formula(file: &[u8], nodes: &[Node]) -> Instrument {
    let instrument = read(file).expect("a good file").instrument;
    Instrument { nodes: nodes.to_vec(), ..instrument }
}

/// Self-looping states with these output words.
pub fn still(outputs: Vec<usize>, words: &[u64]) -> Table {
    let levels = |&word: &u64| (0..outputs.len()).map(|j| bit(word, j)).collect();
    Table {
        inputs: vec![],
        levels: words.iter().map(levels).collect(),
        sets: WrittenSets::new((0..words.len()).map(|s| vec![vec![s]]).collect()),
        outputs,
    }
}

/// State 0 drives the signal, state 1 does not. It goes from 0 to 1, but stays in 0
/// while the watched input is high, and from 1 to either; no other input matters.
pub fn watching(signal: usize, inputs: Vec<usize>, watched: usize) -> Table {
    let j = inputs.iter().position(|&input| input == watched).expect("the input is listed");
    let from_0 = |assignment: u64| vec![usize::from(!bit(assignment, j))];
    let assignments = 0..power(inputs.len());
    let sets =
        vec![assignments.clone().map(from_0).collect(), assignments.map(|_| vec![0, 1]).collect()];
    Table {
        inputs,
        outputs: vec![signal],
        levels: vec![vec![true], vec![false]],
        sets: WrittenSets::new(sets),
    }
}

/// The lamp's component and one that watches it, in this order or the other.
pub fn watched_lamp(lamp_first: bool) -> Instrument {
    let mut tables = vec![still(vec![0], &[0, 1]), watching(1, vec![0], 0)];
    if !lamp_first {
        tables.reverse();
    }
    Instrument { signals: 2, tables, nodes: ALWAYS_1.to_vec(), starts: vec![vec![0, 0]] }
}

/// Eight outputs of which bit j alone is read, beside three external inputs. The
/// states drive nothing, all but bit j, bit j alone, and everything.
pub fn one_of_eight(j: usize) -> Instrument {
    let outputs = vec![0, 2, 3, 5, 6, 8, 9, 11];
    let mut inputs = vec![4, 7, 10, outputs[j]];
    inputs.sort();
    let watching = watching(1, inputs, outputs[j]);
    let still = still(outputs, &[0, 255 - power(j), power(j), 255]);
    Instrument {
        signals: 12,
        tables: vec![still, watching],
        nodes: ALWAYS_1.to_vec(),
        starts: vec![vec![0, 0], vec![2, 0]],
    }
}

/// Three components: the middle one has a lamp that the first watches, one that the
/// last watches, and one that is unread. Its states drive each combination of them.
pub fn middle() -> Instrument {
    let words: Vec<u64> = (0..8).collect();
    let lamps = still(vec![0, 1, 2], &words);
    let tables = vec![watching(3, vec![0], 0), lamps, watching(4, vec![2], 2)];
    let nodes = vec![Node::Signal(3), Node::Signal(4), Node::Or(0, 1), Node::Eg(2)];
    let starts = vec![vec![0, 5, 0], vec![0, 2, 0]];
    Instrument { signals: 5, tables, nodes, starts }
}

/// Four components, each with a lamp and an output that only the component so many
/// places further, counted round the end, watches.
pub fn four_in_a_ring(distance: usize) -> Instrument {
    let mut tables = Vec::new();
    for c in 0..4 {
        let watched = (c + 4 - distance) % 4;
        let mut table = watching(c, vec![watched], watched);
        // States 2 and 3 are 0 and 1 with the lamp.
        table.outputs.push(c + 4);
        let levels = table.levels.clone();
        let with = |lamp: bool| levels.iter().map(move |own| vec![own[0], lamp]);
        table.levels = with(false).chain(with(true)).collect();
        let sets = table.sets.as_written_mut();
        sets.extend(sets.clone());
        tables.push(table);
    }
    let nodes = vec![Node::Signal(1), Node::Signal(2), Node::Eu(0, 1), Node::Eg(2)];
    let starts = vec![vec![0, 1, 2, 3], vec![0, 0, 0, 0]];
    Instrument { signals: 8, tables, nodes, starts }
}

/// One component alone. On the external signal it goes from states 0 and 1 to 2, else
/// to 3; it drives signal 0 in state 2 and blinks with signal 1.
pub fn alone(nodes: &[Node]) -> Instrument {
    let set = |s: usize| if s < 2 { vec![vec![3], vec![2]] } else { vec![vec![s]; 2] };
    let table = Table {
        inputs: vec![2],
        outputs: vec![0, 1],
        levels: (0..4).map(|s| vec![s == 2, s % 2 == 1]).collect(),
        sets: WrittenSets::new((0..4).map(set).collect()),
    };
    let starts = vec![vec![0], vec![1]];
    Instrument { signals: 3, tables: vec![table], nodes: nodes.to_vec(), starts }
}

/// Two counters of 64 states, whose lamps nobody reads, beside a component that stays
/// in state 0 while another's signal 0 is high.
pub fn large() -> Instrument {
    let watched = Table {
        sets: WrittenSets::new(vec![vec![vec![0, 1]], vec![vec![1]]]),
        ..still(vec![0], &[1, 0])
    };
    let tables = vec![counter(64, 2), watched, counter(64, 3), watching(1, vec![0], 0)];
    let starts = vec![vec![63, 0, 5, 0], vec![0, 0, 63, 0]];
    Instrument { signals: 4, tables, nodes: ALWAYS_1.to_vec(), starts }
}

/// A counter of 64 states whose six lamps show the count; it drives signal 6 in odd
/// states. The second component watches that signal, or else the lamp of this bit.
pub fn shown_count(lamp: Option<usize>) -> Instrument {
    let words: Vec<u64> = (0..64).map(|s| s + 64 * (s % 2)).collect();
    let counting = (0..64).map(|s| vec![vec![(s + 1) % 64]]).collect();
    let counter = Table { sets: WrittenSets::new(counting), ..still((0..7).collect(), &words) };
    let watched = lamp.unwrap_or(6);
    let nodes = vec![Node::Signal(7), Node::Ex(0), Node::Eg(1)];
    let tables = vec![counter, watching(7, vec![watched], watched)];
    Instrument { signals: 8, tables, nodes, starts: vec![vec![1, 0], vec![0, 0]] }
}

/// 64 self-looping states; lamp 0 is lit in the last one only.
pub fn last_lit(read: bool) -> Instrument {
    let words: Vec<u64> = (0..64).map(|s| u64::from(s == 63)).collect();
    let mut other = counter(2, 1);
    if read {
        other = watching(1, vec![0], 0);
    }
    let tables = vec![still(vec![0], &words), other];
    let starts = vec![vec![63, 0], vec![0, 0]];
    Instrument { signals: 2, tables, nodes: ALWAYS_1.to_vec(), starts }
}

/// Each reads the other's first output; the second outputs are lamps. All output
/// words occur in both.
pub fn mutual(second_reads_lamp: bool) -> Instrument {
    let to_and_fro = |c: usize, input: usize| {
        let mut table = still(vec![2 * c, 2 * c + 1], &[0, 1, 2, 3]);
        table.inputs = vec![input];
        // The first output changes while the input is high; the lamp is kept.
        let sets = (0..4).map(|s| vec![vec![s], vec![s / 2 * 2 + (1 - s % 2)]]).collect();
        table.sets = WrittenSets::new(sets);
        table
    };
    let tables = vec![to_and_fro(0, 2), to_and_fro(1, usize::from(second_reads_lamp))];
    let nodes = vec![Node::Signal(2), Node::Ex(0), Node::Eg(1)];
    Instrument { signals: 4, tables, nodes, starts: vec![vec![0, 1], vec![3, 3]] }
}
