//! Inputs by chance: good ones, short and long, and the same with damage.
use outside::random::Random;
use outside::table::{check_receiver, may_stand_left, may_stand_right};
use outside::{Plain, LEAF};

/// A count that is mostly small and at times the most there can be.
fn size(r: &mut Random, small: usize, most: usize) -> usize {
    match r.below(12) {
        0 => most,
        1 => r.from_to(0, most),
        _ => r.from_to(0, small.min(most)),
    }
}

/// A good table.
pub fn table(r: &mut Random, symbols: usize) -> Plain {
    let states = size(r, 8, 60);
    let marks = (0..states).map(|_| r.from_to(2, 7) as u16).collect();
    let mut t = Plain { symbols: symbols as u16, marks, rules: vec![] };
    if states == 0 {
        return t;
    }
    let wanted = size(r, 3 * states, 600);
    for _ in 0..2 * wanted {
        let mut q = || r.below(states) as u16;
        let (a, b, c) = (q(), q(), q());
        let rule = match r.below(6) {
            0 | 1 => [0, r.below(symbols) as u16, 0, c],
            2 => [2, a, 0, c],
            _ => [1, a, b, c],
        };
        if t.rules.len() / 4 < wanted && !t.rules.chunks(4).any(|e| e == rule) {
            t.rules.extend(rule);
        }
    }
    t
}

/// A good receiver's table: rules are added while it stays one.
pub fn receiver(r: &mut Random, symbols: usize) -> Plain {
    let states = size(r, 8, 60).max(1);
    let marks: Vec<u16> = (0..states).map(|_| r.from_to(2, 7) as u16).collect();
    let lefts: Vec<u16> = (0..states as u16).filter(|q| may_stand_left(marks[*q as usize])).collect();
    let rights: Vec<u16> = (0..states as u16).filter(|q| may_stand_right(marks[*q as usize])).collect();
    let mut t = Plain { symbols: symbols as u16, marks, rules: vec![] };
    for s in 0..symbols {
        if !r.once_in(4) {
            t.rules.extend([0, s as u16, 0, r.below(states) as u16]);
        }
    }
    for _ in 0..r.from_to(0, states) {
        let rule = [2, r.below(states) as u16, 0, r.below(states) as u16];
        if t.rules.chunks(4).any(|e| e == rule) {
            continue;
        }
        t.rules.extend(rule);
        if check_receiver(&t).is_err() {
            t.rules.truncate(t.rules.len() - 4);
        }
    }
    if !lefts.is_empty() && !rights.is_empty() {
        for _ in 0..size(r, 4 * states, 500) {
            let rule = [1, *r.pick(&lefts), *r.pick(&rights), r.below(states) as u16];
            if !t.rules.chunks(4).any(|e| e[..3] == rule[..3]) && t.rules.len() < 2400 {
                t.rules.extend(rule);
            }
        }
    }
    t
}

/// The same table with something changed; most often it is then a bad one.
pub fn damage_table(r: &mut Random, t: &mut Plain) {
    let odd = [0, 1, 2, 3, 7, 8, 39, 40, 41, 59, 60, 61, 599, 600, 65535];
    let number = *r.pick(&odd);
    match r.below(9) {
        0 => t.symbols = number,
        1 if !t.marks.is_empty() => *t.marks.last_mut().expect("one") = number,
        2 => {
            let at = r.below(t.rules.len() + 1);
            t.rules.insert(at, number);
        }
        3 if t.rules.len() >= 8 => {
            let (from, to) = (4 * r.below(t.rules.len() / 4), 4 * r.below(t.rules.len() / 4));
            let rule = t.rules[from..from + 4].to_vec();
            t.rules[to..to + 4].copy_from_slice(&rule);
        }
        4 => t.marks.resize(61 + r.below(3), 2),
        5 => {
            let more = r.from_to(2400, 2408);
            t.rules.resize(more, 0);
        }
        _ if !t.rules.is_empty() => {
            let at = r.below(t.rules.len());
            t.rules[at] = if r.once_in(2) { number } else { r.below(8) as u16 };
        }
        _ => t.symbols = 0,
    }
}

/// The same table with a rule more, which is good in a table and most often not in a receiver's: a left side again, sorts that do not
/// fit, another way by ε.
pub fn loosen_receiver(r: &mut Random, t: &mut Plain) {
    let states = t.marks.len();
    if states == 0 || t.rules.len() < 4 || t.rules.len() % 4 != 0 {
        return;
    }
    let mut q = || r.below(states) as u16;
    let (a, b, c) = (q(), q(), q());
    let rule = match r.below(3) {
        0 => {
            let from = 4 * r.below(t.rules.len() / 4);
            let mut rule = t.rules[from..from + 4].to_vec();
            rule[3] = c;
            rule
        }
        1 => vec![1, a, b, c],
        _ => vec![2, a, 0, c],
    };
    let at = 4 * r.from_to(0, t.rules.len() / 4);
    t.rules.splice(at..at, rule);
}

/// The same text with something changed.
pub fn damage_text(r: &mut Random, text: &mut Vec<u8>) {
    let odd = b"\t\t\n\n\r  0011269TSLPEDMe,|*?+x\xff-";
    let at = r.below(text.len() + 1);
    match r.below(12) {
        0 | 1 => text.insert(at, *r.pick(odd)),
        2 if at < text.len() => {
            text.remove(at);
        }
        3 | 4 if at < text.len() => text[at] = *r.pick(odd),
        5 => text.truncate(at),
        6..=9 if !text.is_empty() => damage_lines(r, text),
        10 => damage_number(r, text, at),
        _ => {
            let more = [b"\n".as_slice(), b"x", b"T\t1\t1\n", b"S\t0\t1\t0\n", b"E\t0\t0\n", b"L\t0\t0\n"];
            text.extend_from_slice(*r.pick(&more));
        }
    }
}

/// Two lines change places, or a line comes twice, or one is missing.
fn damage_lines(r: &mut Random, text: &mut Vec<u8>) {
    let mut lines: Vec<Vec<u8>> = text.split_inclusive(|b| *b == b'\n').map(<[u8]>::to_vec).collect();
    let (i, j) = (r.below(lines.len()), r.below(lines.len()));
    match r.below(4) {
        0 | 1 => lines.swap(i, j),
        2 => lines.insert(i, lines[j].clone()),
        _ => {
            lines.remove(i);
        }
    }
    *text = lines.concat();
}

/// The first number behind a place becomes another, at a limit or malformed.
fn damage_number(r: &mut Random, text: &mut Vec<u8>, at: usize) {
    let numbers: [&[u8]; 9] = [b"60", b"61", b"40", b"41", b"65535", b"65536", b"007", b"", b"600"];
    let number = *r.pick(&numbers);
    if let Some(from) = (at..text.len()).find(|i| text[*i].is_ascii_digit()) {
        let to = (from..text.len()).find(|i| !text[*i].is_ascii_digit()).unwrap_or(text.len());
        text.splice(from..to, number.iter().copied());
    }
}

/// A node list that is a tree.
pub fn tree(r: &mut Random, symbols: usize) -> Vec<u16> {
    let most = if r.once_in(20) { 3660 } else { 60 };
    let count = size(r, 12, most).max(1);
    let mut nodes = vec![];
    for i in 0..count {
        if i < 2 || r.once_in(3) {
            nodes.extend([r.below(symbols) as u16, LEAF]);
        } else {
            let near = |r: &mut Random| if r.once_in(2) { i - 1 } else { r.below(i) } as u16;
            nodes.extend([near(r), near(r)]);
        }
    }
    nodes
}

pub fn damage_tree(r: &mut Random, nodes: &mut Vec<u16>) {
    match r.below(6) {
        0 => nodes.clear(),
        1 => {
            nodes.pop();
        }
        2 => nodes.resize(r.from_to(7319, 7323), 0),
        _ => {
            let at = r.below(nodes.len());
            nodes[at] = *r.pick(&[0, 1, 2, 5, 39, 40, 41, 100, 3659, 65534, LEAF]);
        }
    }
}

/// A postfix over a list of symbols.
fn postfix(r: &mut Random, word: &[u16]) -> String {
    let unary = |r: &mut Random, s: String| match r.below(8) {
        0 => s + " *",
        1 => s + " ?",
        2 => s + " +",
        3 => s + " * *",
        _ => s,
    };
    let made = match word {
        [] => "e".to_string(),
        [one] => one.to_string(),
        _ => {
            let least = if r.once_in(10) { 0 } else { 1 };
            let (a, b) = word.split_at(r.from_to(least, word.len() - 1));
            let (a, b) = (postfix(r, a), postfix(r, b));
            format!("{a} {b} {}", if r.once_in(2) { "," } else { "|" })
        }
    };
    unary(r, made)
}

/// A model text that is mostly good; models have each symbol once, at times more often.
pub fn models(r: &mut Random, symbols: usize, most: usize) -> Vec<u8> {
    let mut text = format!("D\t{}\t{}\n", symbols, r.below(symbols));
    let mut order: Vec<usize> = (0..symbols).filter(|_| !r.once_in(8)).collect();
    for i in (1..order.len()).rev() {
        order.swap(i, r.below(i + 1));
    }
    for s in order {
        let mut word: Vec<u16> = (0..symbols as u16).filter(|_| r.once_in(2)).collect();
        for i in (1..word.len()).rev() {
            word.swap(i, r.below(i + 1));
        }
        word.truncate(r.from_to(0, most));
        if r.once_in(6) && !word.is_empty() {
            let again = *r.pick(&word);
            word.push(again);
        }
        text += &format!("M\t{}\t{}\n", s, postfix(r, &word));
    }
    text.into_bytes()
}

/// The same model text with one token changed to another of its kind.
pub fn near_models(r: &mut Random, text: &[u8], symbols: usize) -> Vec<u8> {
    let mut text = text.to_vec();
    let header = text.iter().position(|b| *b == b'\n').unwrap_or(0);
    for _ in 0..r.from_to(1, 3) {
        let at = r.from_to(header, text.len() - 1);
        match text[at] {
            b'*' | b'?' | b'+' => text[at] = *r.pick(b"*?+"),
            b',' | b'|' => text[at] = *r.pick(b",|"),
            b'0'..=b'9' if symbols <= 10 && at > 0 && text[at - 1] == b' ' => text[at] = b'0' + r.below(symbols) as u8,
            _ => {}
        }
    }
    text
}
