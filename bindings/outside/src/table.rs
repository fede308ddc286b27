//! The check of a table and of a receiver's table: everything that is wrong is listed with its number and place, then the first is taken.
use crate::{fault, Fault, Plain, MOST_RULES, MOST_STATES, MOST_SYMBOLS};

fn sort(mark: u16) -> u16 {
    mark / 2
}

pub fn may_stand_left(mark: u16) -> bool {
    sort(mark) == 1 || sort(mark) == 3
}

pub fn may_stand_right(mark: u16) -> bool {
    sort(mark) == 2 || sort(mark) == 3
}

/// What is wrong with a rule, rules being counted from 0.
fn rule_faults(t: &Plain, i: usize) -> Vec<u16> {
    let rule = &t.rules[4 * i..4 * i + 4];
    let mut wrong = vec![];
    let (symbols, states) = (t.symbols as usize, t.marks.len());
    let fits = |n: u16, below: usize| (n as usize) < below;
    let in_range = match rule[0] {
        0 => fits(rule[1], symbols) && fits(rule[3], states),
        1 => rule[1..].iter().all(|q| fits(*q, states)),
        2 => fits(rule[1], states) && fits(rule[3], states),
        _ => {
            wrong.push(2);
            true
        }
    };
    if (rule[0] == 0 || rule[0] == 2) && rule[2] != 0 {
        wrong.push(2);
    }
    if !in_range {
        wrong.push(5);
    }
    if t.rules[..4 * i].chunks(4).any(|earlier| earlier == rule) {
        wrong.push(6);
    }
    wrong
}

/// The refusal of a table, if it has one.
pub fn check(t: &Plain) -> Result<(), Fault> {
    let count = t.rules.len() / 4;
    if t.symbols == 0 || t.symbols > MOST_SYMBOLS || t.marks.len() > MOST_STATES || count > MOST_RULES {
        return Err(fault(4, 0));
    }
    if t.rules.len() % 4 != 0 {
        return Err(fault(2, 0));
    }
    if let Some(i) = t.marks.iter().position(|m| !(2..=7).contains(m)) {
        return Err(fault(5, i + 1));
    }
    match (0..count).find_map(|i| rule_faults(t, i).into_iter().min().map(|n| fault(n, i + 1))) {
        Some(f) => Err(f),
        None => Ok(()),
    }
}

/// For each state all that ε steps reach, itself among them, as a mask: Warshall's closure.
pub fn reaches(t: &Plain) -> Vec<u64> {
    let n = t.marks.len();
    let mut reach: Vec<u64> = (0..n).map(|q| 1 << q).collect();
    for r in t.rules.chunks(4).filter(|r| r[0] == 2) {
        reach[r[1] as usize] |= 1 << r[3];
    }
    for k in 0..n {
        for i in 0..n {
            if reach[i] >> k & 1 == 1 {
                reach[i] |= reach[k];
            }
        }
    }
    reach
}

/// The states of a mask that a test takes.
fn count(t: &Plain, mask: u64, good: fn(u16) -> bool) -> usize {
    (0..t.marks.len()).filter(|q| mask >> q & 1 == 1 && good(t.marks[*q])).count()
}

/// The refusal of a receiver's table, if it has one.
pub fn check_receiver(t: &Plain) -> Result<(), Fault> {
    check(t)?;
    let rules: Vec<&[u16]> = t.rules.chunks(4).collect();
    for (i, r) in rules.iter().enumerate() {
        if r[0] != 2 && rules[..i].iter().any(|e| e[..3] == r[..3]) {
            return Err(fault(7, i + 1));
        }
    }
    for (i, r) in rules.iter().enumerate() {
        if r[0] == 1 && !(may_stand_left(t.marks[r[1] as usize]) && may_stand_right(t.marks[r[2] as usize])) {
            return Err(fault(8, i + 1));
        }
    }
    for (q, mask) in reaches(t).into_iter().enumerate() {
        if count(t, mask, may_stand_left) > 1 || count(t, mask, may_stand_right) > 1 {
            return Err(fault(9, q + 1));
        }
    }
    Ok(())
}
