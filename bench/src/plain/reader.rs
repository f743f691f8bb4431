//! Crates cursor and reader: an instrument from the bytes of a file, or the first fault.

use super::instrument::{Instrument, Node, Table};
use super::refusal::Refusal;
use super::words::{below, StateSet, MOST_STATES};

type Read<T> = Result<T, Refusal>;

struct Reader<'a> {
    file: &'a [u8],
    at: usize,
}

pub fn read(file: &[u8]) -> Read<Instrument> {
    let mut reader = Reader { file, at: 0 };
    let components = reader.count(1, 4)?;
    let signals = reader.between(0, 12, Refusal::Range)?;
    let mut driven = 0;
    let mut tables = Vec::with_capacity(4);
    for _ in 0..components {
        tables.push(reader.table(signals, &mut driven)?);
    }
    let nodes = reader.nodes(signals, driven)?;
    let starts = reader.starts(&tables)?;
    if reader.at < file.len() {
        return Err(Refusal::Trailing);
    }
    Ok(Instrument { tables, driven, nodes, starts })
}

impl Reader<'_> {
    /// The number at this place: groups of seven bits, lowest first, shortest form only.
    fn number(&mut self) -> Read<u64> {
        let mut value = 0;
        for shift in [0, 7, 14, 21, 28, 35, 42, 49, 56, 63] {
            let byte = *self.file.get(self.at).ok_or(Refusal::Ended)?;
            if shift == 63 && byte > 1 {
                return Err(Refusal::Form);
            }
            self.at += 1;
            value |= u64::from(byte & 127) << shift;
            if byte < 128 {
                return if byte == 0 && shift > 0 { Err(Refusal::Form) } else { Ok(value) };
            }
        }
        unreachable!("a tenth byte is at most 1")
    }

    fn between(&mut self, lo: u64, hi: u64, cause: Refusal) -> Read<u64> {
        let value = self.number()?;
        if value < lo || hi < value {
            return Err(cause);
        }
        Ok(value)
    }

    /// A count, at most `hi`.
    fn count(&mut self, lo: u64, hi: u64) -> Read<usize> {
        Ok(self.between(lo, hi, Refusal::Range)? as usize)
    }

    /// A list of signals, strictly ascending, none in `taken`, and the set of them.
    fn ports(&mut self, most: u64, signals: u64, taken: u32) -> Read<(Vec<u32>, u32)> {
        let count = self.count(0, most)?;
        let mut list = Vec::with_capacity(count);
        let mut set = 0;
        let mut low = 0;
        for _ in 0..count {
            let signal = self.number()?;
            if signal < low || signal >= signals {
                return Err(Refusal::Order);
            }
            if taken >> signal & 1 == 1 {
                return Err(Refusal::Driven);
            }
            list.push(signal as u32);
            set |= 1 << signal;
            low = signal + 1;
        }
        Ok((list, set))
    }

    /// An output word for each state.
    fn words(&mut self, states: usize, outputs: usize) -> Read<Vec<u32>> {
        let mut words = Vec::with_capacity(states);
        for _ in 0..states {
            words.push(self.between(0, below(outputs), Refusal::Bits)? as u32);
        }
        Ok(words)
    }

    /// The successor sets of this many states, so many inputs read. An empty one is the state.
    fn sets(&mut self, states: usize, inputs: usize) -> Read<Vec<StateSet>> {
        let count = states << inputs;
        let mut sets = Vec::with_capacity(count);
        for place in 0..count {
            let set = self.between(0, below(states), Refusal::Bits)?;
            sets.push(if set == 0 { 1 << (place >> inputs) } else { set });
        }
        Ok(sets)
    }

    fn table(&mut self, signals: u64, driven: &mut u32) -> Read<Table> {
        let states = self.count(1, MOST_STATES as u64)?;
        let (inputs, own) = self.ports(4, signals, 0)?;
        let (outputs, drives) = self.ports(8, signals, own | *driven)?;
        *driven |= drives;
        let words = self.words(states, outputs.len())?;
        let nexts = self.sets(states, inputs.len())?;
        Ok(Table { states, inputs, outputs, words, nexts })
    }

    fn nodes(&mut self, signals: u64, driven: u32) -> Read<Vec<Node>> {
        let count = self.count(1, 24)?;
        let mut nodes = Vec::with_capacity(count);
        for k in 0..count {
            nodes.push(self.node(signals, driven, k)?);
        }
        Ok(nodes)
    }

    fn operand(&mut self, k: usize) -> Read<usize> {
        let value = self.number()?;
        if value < k as u64 {
            Ok(value as usize)
        } else {
            Err(Refusal::Formula)
        }
    }

    fn node(&mut self, signals: u64, driven: u32, k: usize) -> Read<Node> {
        Ok(match self.number()? {
            0 => Node::True,
            1 => {
                let signal = self.number()?;
                if signal >= signals || driven >> signal & 1 == 0 {
                    return Err(Refusal::Undriven);
                }
                Node::Signal(signal as u32)
            }
            2 => Node::Not(self.operand(k)?),
            3 => Node::Or(self.operand(k)?, self.operand(k)?),
            4 => Node::Ex(self.operand(k)?),
            5 => Node::Eg(self.operand(k)?),
            6 => Node::Eu(self.operand(k)?, self.operand(k)?),
            _ => return Err(Refusal::Formula),
        })
    }

    /// The starts: a state of each component.
    fn starts(&mut self, tables: &[Table]) -> Read<Vec<[usize; 4]>> {
        let count = self.count(0, 64)?;
        let mut starts = Vec::with_capacity(count);
        for _ in 0..count {
            let mut start = [0; 4];
            for (part, table) in start.iter_mut().zip(tables) {
                let state = self.number()?;
                if state >= table.states as u64 {
                    return Err(Refusal::Start);
                }
                *part = state as usize;
            }
            starts.push(start);
        }
        Ok(starts)
    }
}
