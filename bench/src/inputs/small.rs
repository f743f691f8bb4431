//! Small instruments, and a file that is only read.

use super::random::{random, Shape};
use super::Input;
use second::instrument::{Instrument, Node, Table, WrittenSets};

/// Document 01's chain: states p, p, not p; 0 goes to 1, 1 to 2, 2 stays; EG p.
fn chain() -> Instrument {
    Instrument {
        signals: 1,
        tables: vec![Table {
            inputs: vec![],
            outputs: vec![0],
            levels: vec![vec![true], vec![true], vec![false]],
            sets: WrittenSets::new(vec![vec![vec![1]], vec![vec![2]], vec![vec![2]]]),
        }],
        nodes: vec![Node::Signal(0), Node::Eg(0)],
        starts: vec![vec![0]],
    }
}

pub fn inputs() -> Vec<Input> {
    let ring = |c: usize| vec![(c + 1) % 4];
    let read = |states: usize| {
        let inputs = vec![vec![8, 9, 10, 11]; 4];
        random(&Shape { sizes: vec![states; 4], inputs, share: 32, seed: 5 })
    };
    let of = |sizes: Vec<usize>, share, seed| {
        let inputs = (0..sizes.len()).map(|c| if sizes.len() == 4 { ring(c) } else { vec![8] });
        Shape { inputs: inputs.collect(), sizes, share, seed }
    };
    vec![
        Input::new("3 states: document 01's chain", &chain()),
        Input::new("64 states, sparse, 24 nodes", &random(&of(vec![8, 8], 0, 1))),
        Input::new("64 states, dense, 24 nodes", &random(&of(vec![8, 8], 16, 2))),
        Input::new("512 states, sparse, 24 nodes", &random(&of(vec![8, 4, 4, 4], 0, 3))),
        Input::new("512 states, dense, 24 nodes", &random(&of(vec![8, 4, 4, 4], 16, 4))),
        Input::new("64 states of one component, sparse, 24 nodes", &random(&of(vec![64], 0, 6))),
        Input::new("64 states of one component, dense, 24 nodes", &random(&of(vec![64], 16, 7))),
        Input::new("only read: 32 x 32 x 32 x 32, 4 inputs each, refused 11", &read(32)),
        Input::new("only read: 64 x 64 x 64 x 64, 4 inputs each, refused 11", &read(64)),
    ]
}
