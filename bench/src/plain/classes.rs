//! Crate classes: the relation of one node, as the row of states that each state is related to.

use super::instrument::{ComparedWords, Table};
use super::marks::Mark;
use super::words::{below, members, StateSet, MOST_STATES};

pub type Relation = [StateSet; MOST_STATES];

/// Every state is related to every state.
pub fn everything(table: &Table) -> Relation {
    let mut rows = [0; MOST_STATES];
    rows[..table.states].fill(table.all());
    rows
}

/// States of the same level are related.
pub fn same_level(table: &Table, high: StateSet) -> Relation {
    let low = table.all() & !high;
    let mut rows = [0; MOST_STATES];
    for (x, row) in rows[..table.states].iter_mut().enumerate() {
        *row = if high >> x & 1 == 1 { high } else { low };
    }
    rows
}

/// What is related by both.
pub fn both(a: &Relation, b: &Relation) -> Relation {
    std::array::from_fn(|x| a[x] & b[x])
}

/// The converse relation.
fn converse(table: &Table, rows: &Relation) -> Relation {
    let mut columns = [0; MOST_STATES];
    for (x, &row) in rows[..table.states].iter().enumerate() {
        members(row).for_each(|y| columns[y] |= 1 << x);
    }
    columns
}

/// The rule of EX, EG and EU, where the live states are those that are not FAIL.
struct Rule<'a> {
    table: &'a Table,
    words: &'a ComparedWords,
    mark: Mark,
    live: StateSet,
}

impl Rule<'_> {
    /// Of the states in `among` those of which, on every assignment, each live successor has a
    /// related successor of x.
    fn matched(&self, related: &Relation, x: usize, among: StateSet) -> StateSet {
        let mut kept = among;
        for (a, &w) in self.table.row(x).iter().enumerate() {
            if kept == 0 {
                break;
            }
            let missed = self.live & !members(w).fold(0, |union, u| union | related[u]);
            if missed != 0 {
                for y in members(kept) {
                    if self.table.row(y)[a] & missed != 0 {
                        kept &= !(1 << y);
                    }
                }
            }
        }
        kept
    }

    /// The states that are PASS with x, or FAIL with x.
    fn same_mark(&self, x: usize) -> StateSet {
        let with = |set: StateSet| if set >> x & 1 == 1 { set } else { 0 };
        with(self.mark.pass) | with(self.mark.fail)
    }

    /// Of the states in `among` those with the compared outputs of x.
    fn same_outputs(&self, x: usize, among: StateSet) -> StateSet {
        let words = self.words;
        members(among).filter(|&y| words[x] == words[y]).fold(0, |set, y| set | 1 << y)
    }
}

/// The relation of EX: what the operand relates and the rule by it keeps.
pub fn ex(
    table: &Table,
    words: &ComparedWords,
    operand: &Relation,
    mark: Mark,
    operand_fail: StateSet,
) -> Relation {
    let rule = Rule { table, words, mark, live: table.all() & !operand_fail };
    let opposite = converse(table, operand);
    let columns = std::array::from_fn(|x| match x < table.states {
        true => rule.matched(&opposite, x, opposite[x]),
        false => 0,
    });
    let forth = converse(table, &columns);
    let mut rows = *operand;
    for (x, row) in rows[..table.states].iter_mut().enumerate() {
        let back = rule.matched(operand, x, *row);
        *row &= rule.same_mark(x) | rule.same_outputs(x, forth[x] & back);
    }
    rows
}

/// For each state, those that have it as a successor on some assignment.
fn predecessors(table: &Table) -> Relation {
    let mut before = [0; MOST_STATES];
    for x in 0..table.states {
        let successors = table.row(x).iter().fold(0, |all, w| all | w);
        for t in members(successors) {
            before[t] |= 1 << x;
        }
    }
    before
}

/// The lowest member from x on, or else the lowest.
fn next(set: StateSet, x: usize) -> usize {
    let later = set & !below(x);
    (if later != 0 { later } else { set }).trailing_zeros() as usize
}

/// A relation, and the pairs of it that are to be looked at again.
struct Half {
    rows: Relation,
    again: Relation,
    /// The rows where there are such pairs.
    left: StateSet,
}

/// Looks at row x of one half. Pairs that fail go out of both halves, and pairs of their
/// predecessors are noted, since no other test depends on them.
fn look(rule: &Rule, before: &Relation, own: &mut Half, other: &mut Half, x: usize) {
    own.left &= !(1 << x);
    let among = own.rows[x] & std::mem::take(&mut own.again[x]) & !rule.same_mark(x);
    let failed = among & !rule.matched(&own.rows, x, among);
    own.rows[x] &= !failed;
    let mut others = 0;
    for y in members(failed) {
        other.rows[y] &= !(1 << x);
        others |= before[y];
    }
    if others != 0 {
        members(before[x]).for_each(|z| own.again[z] |= others);
        own.left |= before[x];
        members(others).for_each(|z| other.again[z] |= before[x]);
        other.left |= others;
    }
}

/// Looks at rows of one half until none is to be looked at; the other half's wait.
fn settle(rule: &Rule, before: &Relation, own: &mut Half, other: &mut Half) {
    let mut x = 0;
    while own.left != 0 {
        x = next(own.left, x);
        look(rule, before, own, other, x);
    }
}

/// The relation of EG and EU: the largest inside the operands' that keeps the rule by itself. It
/// and its converse are cut down together, each for one half of the rule, and settled in turn.
pub fn fixed(table: &Table, words: &ComparedWords, operands: &Relation, mark: Mark) -> Relation {
    let rule = Rule { table, words, mark, live: table.all() & !mark.fail };
    let before = predecessors(table);
    let mut rows = *operands;
    for (x, row) in rows[..table.states].iter_mut().enumerate() {
        *row &= rule.same_mark(x) | rule.same_outputs(x, *row);
    }
    let columns = converse(table, &rows);
    let mut forth = Half { rows, again: rows, left: table.all() };
    let mut back = Half { rows: columns, again: columns, left: table.all() };
    loop {
        settle(&rule, &before, &mut forth, &mut back);
        if back.left == 0 {
            return forth.rows;
        }
        settle(&rule, &before, &mut back, &mut forth);
    }
}

/// The lowest related state of each: the name of its class.
pub fn names(table: &Table, related: &Relation) -> Vec<u8> {
    related[..table.states].iter().map(|row| row.trailing_zeros() as u8).collect()
}
