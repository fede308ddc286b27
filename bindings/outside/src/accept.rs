//! Evaluation by sets of states, and the check of a tree.
use crate::table::{check, reaches};
use crate::{fault, Fault, Plain, LEAF, MOST_NODES};

/// A table made ready: what ε steps reach, and the final states.
pub struct Ready<'a> {
    table: &'a Plain,
    reach: Vec<u64>,
    finals: u64,
}

impl<'a> Ready<'a> {
    pub fn new(table: &'a Plain) -> Ready<'a> {
        let finals = table.marks.iter().enumerate().filter(|(_, m)| *m % 2 == 1).fold(0, |s, (q, _)| s | 1 << q);
        Ready { table, reach: reaches(table), finals }
    }

    fn close(&self, set: u64) -> u64 {
        (0..self.reach.len()).filter(|q| set >> q & 1 == 1).fold(0, |s, q| s | self.reach[q])
    }

    fn targets(&self, wanted: impl Fn(&[u16]) -> bool) -> u64 {
        self.close(self.table.rules.chunks(4).filter(|r| wanted(r)).fold(0, |s, r| s | 1 << r[3]))
    }

    /// All states of a leaf.
    pub fn leaf(&self, symbol: u16) -> u64 {
        self.targets(|r| r[0] == 0 && r[1] == symbol)
    }

    /// All states of a join, from all states of its two parts.
    pub fn join(&self, left: u64, right: u64) -> u64 {
        self.targets(|r| r[0] == 1 && left >> r[1] & 1 == 1 && right >> r[2] & 1 == 1)
    }

    pub fn accepts_set(&self, set: u64) -> bool {
        set & self.finals != 0
    }

    /// All states of the root.
    pub fn root(&self, nodes: &[u16]) -> u64 {
        let mut sets: Vec<u64> = vec![];
        for n in nodes.chunks(2) {
            let set = match n[1] {
                LEAF => self.leaf(n[0]),
                right => self.join(sets[n[0] as usize], sets[right as usize]),
            };
            sets.push(set);
        }
        sets[sets.len() - 1]
    }
}

/// The refusal of a node list, if it has one.
pub fn check_tree(symbols: u16, nodes: &[u16]) -> Result<(), Fault> {
    if nodes.len() % 2 == 1 || nodes.is_empty() || nodes.len() > 2 * MOST_NODES {
        return Err(fault(12, 0));
    }
    let bad = |i: usize, n: &[u16]| match n[1] {
        LEAF => n[0] >= symbols,
        right => n[0] as usize >= i || right as usize >= i,
    };
    match nodes.chunks(2).enumerate().find(|(i, n)| bad(*i, n)) {
        Some((i, _)) => Err(fault(12, i + 1)),
        None => Ok(()),
    }
}

pub fn accept(t: &Plain, nodes: &[u16]) -> Result<bool, Fault> {
    check(t)?;
    check_tree(t.symbols, nodes)?;
    let ready = Ready::new(t);
    Ok(ready.accepts_set(ready.root(nodes)))
}
