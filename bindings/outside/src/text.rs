//! Rule texts: each line is taken apart by its tabs, and all that is wrong with it is listed; the lowest number counts.
use crate::{fault, Fault, Plain, MOST_RULES, MOST_STATES, MOST_SYMBOLS};

enum Line {
    T(u16, u16),
    S(u16, u16, u16),
    Rule([u16; 4]),
}

/// A decimal number, 0 to 65,535, without leading zeros.
pub fn number(field: &[u8]) -> Option<u16> {
    let text = std::str::from_utf8(field).ok()?;
    let n: u16 = text.parse().ok()?;
    (n.to_string() == text).then_some(n)
}

fn line(bytes: &[u8]) -> Option<Line> {
    let fields: Vec<&[u8]> = bytes.split(|b| *b == b'\t').collect();
    let numbers: Vec<u16> = fields[1..].iter().map(|f| number(f)).collect::<Option<_>>()?;
    match (fields[0], numbers.as_slice()) {
        (b"T", [y, n]) => Some(Line::T(*y, *n)),
        (b"S", [q, s, f]) => Some(Line::S(*q, *s, *f)),
        (b"L", [a, q]) => Some(Line::Rule([0, *a, 0, *q])),
        (b"P", [l, r, q]) => Some(Line::Rule([1, *l, *r, *q])),
        (b"E", [p, q]) => Some(Line::Rule([2, *p, 0, *q])),
        _ => None,
    }
}

/// The lines of a text, each without its LF, or none where the LF is missing.
pub fn lines(text: &[u8]) -> Vec<Option<&[u8]>> {
    let mut all: Vec<Option<&[u8]>> = text.split(|b| *b == b'\n').map(Some).collect();
    match all.pop() {
        Some(Some([])) | None => {}
        _ => all.push(None),
    }
    all
}

/// A table while its text is read: `states` are due in all; `head` is missing before the first line.
struct Reading {
    table: Plain,
    states: usize,
    head: bool,
}

impl Reading {
    /// All that is wrong with a T line.
    fn head_faults(&self, y: u16, n: u16) -> Vec<u16> {
        let mut wrong = vec![];
        if self.head {
            wrong.push(3);
        }
        if y == 0 || y > MOST_SYMBOLS || n as usize > MOST_STATES {
            wrong.push(4);
        }
        wrong
    }

    /// All that is wrong with an S line.
    fn state_faults(&self, q: u16, s: u16, f: u16) -> Vec<u16> {
        let mut wrong = vec![];
        let due = self.table.marks.len();
        if !self.head || due == self.states || q as usize != due || !self.table.rules.is_empty() {
            wrong.push(3);
        }
        if s == 0 || s > 3 || f > 1 {
            wrong.push(5);
        }
        wrong
    }

    /// All that is wrong with a rule line.
    fn rule_faults(&self, r: [u16; 4]) -> Vec<u16> {
        let (t, mut wrong) = (&self.table, vec![]);
        if !self.head || t.marks.len() < self.states {
            wrong.push(3);
        }
        if t.rules.len() / 4 == MOST_RULES {
            wrong.push(4);
        }
        let below = |n: u16, end: usize| (n as usize) < end;
        let source = if r[0] == 0 { t.symbols as usize } else { self.states };
        if !below(r[1], source) || (r[0] == 1 && !below(r[2], self.states)) || !below(r[3], self.states) {
            wrong.push(5);
        }
        if t.rules.chunks(4).any(|e| e == r) {
            wrong.push(6);
        }
        wrong
    }

    /// All that is wrong with a line.
    fn faults(&self, line: &Option<Line>) -> Vec<u16> {
        match line {
            None => vec![2],
            Some(Line::T(y, n)) => self.head_faults(*y, *n),
            Some(Line::S(q, s, f)) => self.state_faults(*q, *s, *f),
            Some(Line::Rule(r)) => self.rule_faults(*r),
        }
    }

    /// Takes up a line that has no fault.
    fn take(&mut self, line: Option<Line>) {
        match line {
            None => {}
            Some(Line::T(y, n)) => (self.table.symbols, self.states, self.head) = (y, n as usize, true),
            Some(Line::S(_, s, f)) => self.table.marks.push(2 * s + f),
            Some(Line::Rule(r)) => self.table.rules.extend(r),
        }
    }
}

pub fn read(text: &[u8], marks_room: usize, rules_room: usize) -> Result<Plain, Fault> {
    if marks_room < MOST_STATES || rules_room < 4 * MOST_RULES {
        return Err(fault(1, 0));
    }
    let mut found = Reading { table: Plain { symbols: 0, marks: vec![], rules: vec![] }, states: 0, head: false };
    let all = lines(text);
    for (i, bytes) in all.iter().enumerate() {
        let line = bytes.and_then(line);
        if let Some(n) = found.faults(&line).into_iter().min() {
            return Err(fault(n, i + 1));
        }
        found.take(line);
    }
    if all.is_empty() || found.table.marks.len() < found.states {
        return Err(fault(3, all.len() + 1));
    }
    Ok(found.table)
}

/// The text of a table, good or not.
pub fn text_of(t: &Plain) -> String {
    let mut s = format!("T\t{}\t{}\n", t.symbols, t.marks.len());
    for (q, m) in t.marks.iter().enumerate() {
        s += &format!("S\t{}\t{}\t{}\n", q, m / 2, m % 2);
    }
    for r in t.rules.chunks(4) {
        s += &match r[0] {
            0 => format!("L\t{}\t{}\n", r[1], r[3]),
            1 => format!("P\t{}\t{}\t{}\n", r[1], r[2], r[3]),
            _ => format!("E\t{}\t{}\n", r[1], r[3]),
        };
    }
    s
}

pub fn write(t: &Plain, room: usize) -> Result<String, Fault> {
    crate::table::check(t)?;
    if room < 8192 {
        return Err(fault(1, 0));
    }
    Ok(text_of(t))
}
