//! The inclusion test by the naive product: every pair of one state that the sender has on some tree and the set of all states that the
//! receiver has on it. And all small trees, one by one.
use crate::accept::Ready;
use crate::table::{check, check_receiver, reaches};
use crate::{Fault, Plain, LEAF};
use std::collections::{HashMap, HashSet};

/// A pair and how it was met, for counting.
pub struct Product {
    pub pairs: usize,
    pub included: bool,
}

/// Follows all pairs; both tables are good.
pub fn product(a: &Plain, b: &Plain) -> Product {
    let (reach, ready) = (reaches(a), Ready::new(b));
    let finals: u64 = a.marks.iter().enumerate().filter(|(_, m)| *m % 2 == 1).fold(0, |s, (q, _)| s | 1 << q);
    let joins: Vec<&[u16]> = a.rules.chunks(4).filter(|r| r[0] == 1).collect();
    let mut known: HashSet<(usize, u64)> = HashSet::new();
    let mut by_state: Vec<Vec<u64>> = vec![vec![]; a.marks.len()];
    let mut joined: HashMap<(u64, u64), u64> = HashMap::new();
    let mut todo: Vec<(usize, u64)> = vec![];
    let mut included = true;
    for r in a.rules.chunks(4).filter(|r| r[0] == 0) {
        todo.push((r[3] as usize, ready.leaf(r[1])));
    }
    while let Some((p, set)) = todo.pop() {
        for q in (0..a.marks.len()).filter(|q| reach[p] >> q & 1 == 1) {
            if !known.insert((q, set)) {
                continue;
            }
            by_state[q].push(set);
            included &= finals >> q & 1 == 0 || ready.accepts_set(set);
            for r in &joins {
                let (l, m) = (r[1] as usize, r[2] as usize);
                let rights: Vec<u64> = if l == q { by_state[m].clone() } else { vec![] };
                let lefts: Vec<u64> = if m == q { by_state[l].clone() } else { vec![] };
                let both = rights.into_iter().map(|x| (set, x)).chain(lefts.into_iter().map(|x| (x, set)));
                for (x, y) in both {
                    let z = *joined.entry((x, y)).or_insert_with(|| ready.join(x, y));
                    if !known.contains(&(r[3] as usize, z)) {
                        todo.push((r[3] as usize, z));
                    }
                }
            }
        }
    }
    Product { pairs: known.len(), included }
}

/// What the inclusion test must answer: included or not, or a refusal.
pub fn include(a: &Plain, b: &Plain, room: usize) -> Result<bool, Fault> {
    check(a).map_err(|f| Fault { side: 1, ..f })?;
    check_receiver(b).map_err(|f| Fault { side: 2, ..f })?;
    if a.symbols != b.symbols {
        return Err(Fault { number: 10, side: 0, place: 0 });
    }
    if room < 2 * a.marks.len() * (b.marks.len() + 1) {
        return Err(Fault { number: 11, side: 0, place: 0 });
    }
    Ok(product(a, b).included)
}

/// Does some tree with at most so many leaves show that the languages are not included? All trees, by their number of leaves, as the two
/// sets of states that they have; trees that have the same two sets are one here.
pub fn small_witness(a: &Plain, b: &Plain, most_leaves: usize) -> bool {
    let (left, right) = (Ready::new(a), Ready::new(b));
    let mut by_leaves: Vec<Vec<(u64, u64)>> = vec![vec![]];
    let mut seen: HashSet<(u64, u64)> = HashSet::new();
    for n in 1..=most_leaves {
        let mut made = vec![];
        if n == 1 {
            made.extend((0..a.symbols).map(|s| (left.leaf(s), right.leaf(s))));
        }
        for k in 1..n {
            for x in &by_leaves[k] {
                for y in &by_leaves[n - k] {
                    made.push((left.join(x.0, y.0), right.join(x.1, y.1)));
                }
            }
        }
        made.retain(|t| seen.insert(*t));
        if made.iter().any(|t| left.accepts_set(t.0) && !right.accepts_set(t.1)) {
            return true;
        }
        by_leaves.push(made);
    }
    false
}

/// What is wrong with a witness, if anything is.
pub fn bad_witness(a: &Plain, b: &Plain, nodes: &[u16]) -> Option<&'static str> {
    let count = nodes.len() / 2;
    if crate::accept::check_tree(a.symbols, nodes).is_err() {
        return Some("it is no tree");
    }
    if count > a.marks.len() * (b.marks.len() + 1) {
        return Some("it has too many nodes");
    }
    let used: HashSet<u16> = nodes.chunks(2).filter(|n| n[1] != LEAF).flat_map(|n| [n[0], n[1]]).collect();
    if (0..count - 1).any(|v| !used.contains(&(v as u16))) {
        return Some("a node is no child of a later one");
    }
    let (left, right) = (Ready::new(a), Ready::new(b));
    if !left.accepts_set(left.root(nodes)) {
        return Some("the sender rejects it");
    }
    right.accepts_set(right.root(nodes)).then_some("the receiver accepts it")
}
