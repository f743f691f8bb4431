//! The reader of instrument files. Document 01, "The instrument file" and "Refused".
//!
//! Faults are met in file order. For one number the order is 1, 2, then its own
//! cause, 4 before 5.

use std::ops::{Range, RangeInclusive};

use crate::instrument::{Instrument, Node, Table, WrittenSets};
use crate::limits;
use crate::number::read_number;
use crate::refusal::Refusal;
use crate::word::members_of;

/// An accepted file: the instrument, and for each component the part of the
/// file from its state count to its last successor set.
pub struct Accepted {
    pub instrument: Instrument,
    pub stretches: Vec<Range<usize>>,
}

/// The place reached in a file. It moves on only past a number that was read.
struct Reader<'a> {
    file: &'a [u8],
    place: usize,
}

/// Reads a file, or answers the first fault in file order.
pub fn read(file: &[u8]) -> Result<Accepted, Refusal> {
    let mut reader = Reader { file, place: 0 };
    let components = reader.count(1..=limits::COMPONENTS)?;
    let signals = reader.count(0..=limits::SIGNALS)?;
    let mut tables = Vec::new();
    let mut stretches = Vec::new();
    for _ in 0..components {
        let begin = reader.place;
        let table = reader.table(signals, &tables)?;
        tables.push(table);
        stretches.push(begin..reader.place);
    }
    let nodes = reader.nodes(&tables)?;
    let starts = reader.starts(&tables)?;
    if reader.place < file.len() {
        return Err(Refusal::BytesAfterLastStart);
    }
    let instrument = Instrument { signals, tables, nodes, starts };
    Ok(Accepted { instrument, stretches })
}

impl Reader<'_> {
    fn number(&mut self) -> Result<u64, Refusal> {
        let (value, next_place) = read_number(self.file, self.place)?;
        self.place = next_place;
        Ok(value)
    }

    /// A number to be compared with a limit. One that is no `usize` is above
    /// every limit, and so is the largest one that is.
    fn limited(&mut self) -> Result<usize, Refusal> {
        Ok(usize::try_from(self.number()?).unwrap_or(usize::MAX))
    }

    /// A count; 3 if it is outside its range.
    fn count(&mut self, range: RangeInclusive<usize>) -> Result<usize, Refusal> {
        let value = self.limited()?;
        if range.contains(&value) {
            Ok(value)
        } else {
            Err(Refusal::CountOutsideRange)
        }
    }

    fn table(&mut self, signals: usize, earlier: &[Table]) -> Result<Table, Refusal> {
        let states = self.count(1..=limits::STATES)?;
        let mut inputs = Vec::new();
        for _ in 0..self.count(0..=limits::INPUTS)? {
            let signal = self.listed_signal(signals, &inputs)?;
            inputs.push(signal);
        }
        let mut outputs = Vec::new();
        for _ in 0..self.count(0..=limits::OUTPUTS)? {
            let signal = self.listed_signal(signals, &outputs)?;
            let driven = earlier.iter().any(|table| table.drives(signal));
            if driven || inputs.contains(&signal) {
                return Err(Refusal::OutputTaken);
            }
            outputs.push(signal);
        }
        let mut table = Table { inputs, outputs, levels: vec![], sets: WrittenSets::new(vec![]) };
        for _ in 0..states {
            table.levels.push(self.output_word(table.outputs.len())?);
        }
        for _ in 0..states {
            let mut sets = Vec::new();
            for _ in 0..table.assignments() {
                sets.push(self.successor_set(states)?);
            }
            table.sets.as_written_mut().push(sets);
        }
        Ok(table)
    }

    /// A listed signal: below W and above those listed before it, else 4.
    fn listed_signal(&mut self, signals: usize, listed: &[usize]) -> Result<usize, Refusal> {
        let signal = self.limited()?;
        let ascending = listed.iter().all(|&before| before < signal);
        if signal < signals && ascending {
            Ok(signal)
        } else {
            Err(Refusal::ListedSignal)
        }
    }

    /// An output word: no bit at or above the number of outputs, else 6.
    fn output_word(&mut self, outputs: usize) -> Result<Vec<bool>, Refusal> {
        let word = self.number()?;
        members_of(word, outputs).ok_or(Refusal::WordOrSet)
    }

    /// A successor set, which may be empty: no bit at or above the number of
    /// states, else 6.
    fn successor_set(&mut self, states: usize) -> Result<Vec<usize>, Refusal> {
        let word = self.number()?;
        let members = members_of(word, states).ok_or(Refusal::WordOrSet)?;
        Ok((0..states).filter(|&t| members[t]).collect())
    }

    fn nodes(&mut self, tables: &[Table]) -> Result<Vec<Node>, Refusal> {
        let mut nodes = Vec::new();
        for k in 0..self.count(1..=limits::NODES)? {
            // The kind is judged before its operands are read.
            let node = match self.number()? {
                0 => Node::True,
                1 => Node::Signal(self.named_signal(tables)?),
                2 => Node::Not(self.operand(k)?),
                3 => Node::Or(self.operand(k)?, self.operand(k)?),
                4 => Node::Ex(self.operand(k)?),
                5 => Node::Eg(self.operand(k)?),
                6 => Node::Eu(self.operand(k)?, self.operand(k)?),
                _ => return Err(Refusal::KindOrOperand),
            };
            nodes.push(node);
        }
        Ok(nodes)
    }

    /// A signal node's operand: driven by some component, else 8.
    fn named_signal(&mut self, tables: &[Table]) -> Result<usize, Refusal> {
        let signal = self.limited()?;
        if tables.iter().any(|table| table.drives(signal)) {
            Ok(signal)
        } else {
            Err(Refusal::UndrivenSignal)
        }
    }

    /// An operand of node k: an earlier node, else 7.
    fn operand(&mut self, k: usize) -> Result<usize, Refusal> {
        let operand = self.limited()?;
        if operand < k {
            Ok(operand)
        } else {
            Err(Refusal::KindOrOperand)
        }
    }

    fn starts(&mut self, tables: &[Table]) -> Result<Vec<Vec<usize>>, Refusal> {
        let mut starts = Vec::new();
        for _ in 0..self.count(0..=limits::STARTS)? {
            let mut start = Vec::new();
            for table in tables {
                let state = self.limited()?;
                if state >= table.states() {
                    return Err(Refusal::StateNotInComponent);
                }
                start.push(state);
            }
            starts.push(start);
        }
        Ok(starts)
    }
}
