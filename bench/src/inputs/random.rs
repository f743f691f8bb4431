//! Random instruments of 4,096 states: sparse and dense successor sets, external signals that one
//! component reads and that two read.

use super::formulas::nested;
use super::Input;
use second::instrument::{Instrument, Table, WrittenSets};
use second::prng::Prng;

/// Of a random instrument.
pub struct Shape {
    pub sizes: Vec<usize>,
    /// The signals that each component reads.
    pub inputs: Vec<Vec<usize>>,
    /// Of 32 states, how many are successors besides one; 0 for one or two successors.
    pub share: usize,
    pub seed: u64,
}

/// One successor, and others by the share.
pub fn successors(prng: &mut Prng, states: usize, share: usize) -> Vec<usize> {
    let one = prng.below(states);
    let other = if share == 0 { prng.below(2 * states) } else { states };
    (0..states).filter(|&t| t == one || t == other || prng.below(32) < share).collect()
}

/// An instrument of this shape. Each component drives its own number's signal, unless all twelve
/// are external.
pub fn random(shape: &Shape) -> Instrument {
    let mut prng = Prng::new(shape.seed);
    let driving = !shape.external_only();
    let mut tables = Vec::new();
    for (c, &states) in shape.sizes.iter().enumerate() {
        let inputs = shape.inputs[c].clone();
        let assignments = 1 << inputs.len();
        let outputs = if driving { vec![c] } else { vec![] };
        let level = |prng: &mut Prng| outputs.iter().map(|_| prng.below(2) == 1).collect();
        let levels = (0..states).map(|_| level(&mut prng)).collect();
        let sets = |prng: &mut Prng| {
            (0..assignments).map(|_| successors(prng, states, shape.share)).collect()
        };
        let successors = (0..states).map(|_| sets(&mut prng)).collect();
        tables.push(Table { inputs, outputs, levels, sets: WrittenSets::new(successors) });
    }
    let named: Vec<usize> = if driving { (0..tables.len()).collect() } else { vec![] };
    Instrument { signals: 12, tables, nodes: nested(&named, 24), starts: vec![] }
}

impl Shape {
    /// Whether all twelve signals are read, so that none is left to drive.
    fn external_only(&self) -> bool {
        (0..12).all(|signal| self.inputs.iter().any(|list| list.contains(&signal)))
    }
}

/// Inputs of four components: `single` signals that one reads and `shared` ones that two
/// neighbours read, numbered downwards from 11; component c itself drives signal c.
pub fn external(single: usize, shared: usize) -> Vec<Vec<usize>> {
    let mut inputs = vec![vec![]; 4];
    for k in 0..single + shared {
        let signal = 11 - k;
        inputs[k % 4].push(signal);
        if k >= single {
            inputs[(k + 1) % 4].push(signal);
        }
    }
    for list in &mut inputs {
        list.sort();
    }
    inputs
}

fn eight(inputs: Vec<Vec<usize>>, share: usize, seed: u64) -> Instrument {
    random(&Shape { sizes: vec![8; 4], inputs, share, seed })
}

pub fn inputs() -> Vec<Input> {
    let ring = || (0..4).map(|c| vec![(c + 1) % 4]).collect::<Vec<_>>();
    let three = || (0..3).map(|c| vec![(c + 1) % 3]).collect::<Vec<_>>();
    let two = || vec![vec![1], vec![0]];
    let mut inputs = Vec::new();
    for (word, share) in [("sparse", 0), ("dense", 16), ("full", 32)] {
        let wide = Shape { sizes: vec![32, 32, 4], inputs: three(), share, seed: 10 };
        inputs.push(Input::new(format!("32 x 32 x 4, {word}, no external"), &random(&wide)));
        let wider = Shape { sizes: vec![64, 64], inputs: two(), share, seed: 12 };
        inputs.push(Input::new(format!("64 x 64, {word}, no external"), &random(&wider)));
        let four = eight(ring(), share, 11);
        inputs.push(Input::new(format!("8 x 8 x 8 x 8, {word}, no external"), &four));
    }
    for (word, share) in [("sparse", 0), ("dense", 16)] {
        for (single, shared) in [(4, 0), (8, 0), (12, 0), (0, 4), (0, 8), (8, 4)] {
            let name = format!("8 x 8 x 8 x 8, {word}, external: {single} by one, {shared} by two");
            let instrument = eight(external(single, shared), share, 20);
            inputs.push(Input::new(name, &instrument));
        }
    }
    for sizes in [vec![1, 32, 32, 4], vec![1, 4, 32, 32], vec![1, 64, 64, 1], vec![1, 1, 64, 64]] {
        let words: Vec<String> = sizes.iter().map(usize::to_string).collect();
        let name = format!("{}, full, external: 8 by two", words.join(" x "));
        let thin = Shape { sizes, inputs: external(0, 8), share: 32, seed: 31 };
        inputs.push(Input::new(name, &random(&thin)));
    }
    inputs
}
