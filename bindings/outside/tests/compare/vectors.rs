//! The cases of bindings/vectors/base.tsv, on the library and on the plain implementation.
use crate::{library, Tally};
use outside::{accept, include, model, table, text, Fault, Plain};
use std::fmt::Debug;

fn numbers(field: &str) -> Vec<u16> {
    field.split(',').filter(|n| !n.is_empty()).map(|n| n.parse().expect("a number")).collect()
}

fn bytes(field: &str) -> Vec<u8> {
    (0..field.len() / 2).map(|i| u8::from_str_radix(&field[2 * i..2 * i + 2], 16).expect("two digits")).collect()
}

fn table(fields: &[&str]) -> Plain {
    Plain { symbols: fields[0].parse().expect("symbols"), marks: numbers(fields[1]), rules: numbers(fields[2]) }
}

/// What must be answered: a refusal, or what the other words say.
fn expected<T>(words: &[&str], answer: impl Fn(&[&str]) -> T) -> Result<T, Fault> {
    match words {
        ["refused", n, s, p] => {
            Err(Fault { number: n.parse().expect("number"), side: s.parse().expect("side"), place: p.parse().expect("place") })
        }
        _ => Ok(answer(words)),
    }
}

impl Tally {
    /// Both sides held to what must be answered.
    fn both<T: PartialEq + Debug + Clone>(
        &mut self,
        line: &str,
        ours: Result<T, Fault>,
        plain: Result<T, Fault>,
        want: Result<T, Fault>,
    ) {
        self.same("vectors", ours, want.clone(), &line);
        self.same("vectors, plain", plain, want, &line);
    }
}

fn include_case(c: &mut Tally, line: &str, given: &[&str], words: &[&str], room: usize) {
    let (a, b) = (table(given), table(&given[3..]));
    let found = library::include(&a, &b, room);
    if let Ok(Some(nodes)) = &found {
        if let Some(what) = include::bad_witness(&a, &b, nodes) {
            c.disagree("vectors", what, &line);
        }
    }
    c.both(line, found.map(|w| w.is_none()), include::include(&a, &b, room), expected(words, |w| w[0] == "included"));
}

/// Runs a case; a function that is not there is passed over.
fn case(c: &mut Tally, line: &str) -> bool {
    let fields: Vec<&str> = line.split('\t').collect();
    let arrow = fields.iter().position(|f| *f == "=>").expect("an arrow");
    let (given, words) = (&fields[1..arrow], &fields[arrow + 1..]);
    let room = |i: usize| given[i].parse::<usize>().expect("room");
    match fields[0] {
        "check" => {
            let t = table(given);
            c.both(line, library::check(&t), table::check(&t), expected(words, |_| ()));
        }
        "accept" => {
            let (t, nodes) = (table(given), numbers(given[3]));
            c.both(line, library::accept(&t, &nodes), accept::accept(&t, &nodes), expected(words, |w| w[0] == "accepted"));
        }
        "include" => include_case(c, line, given, words, room(6)),
        "read" => {
            let (s, m, r) = (bytes(given[0]), room(1), room(2));
            c.both(line, library::read(&s, m, r), text::read(&s, m, r), expected(words, |w| table(&w[1..])));
        }
        "models" => {
            let (s, m, r) = (bytes(given[0]), room(1), room(2));
            c.both(line, library::compile(&s, m, r), model::compile(&s, m, r), expected(words, |w| table(&w[1..])));
        }
        "write" => {
            let (t, n) = (table(given), room(3));
            let want = expected(words, |w| String::from_utf8(bytes(w[1])).expect("plain bytes"));
            c.both(line, library::write(&t, n), text::write(&t, n), want);
        }
        _ => return false,
    }
    true
}

pub fn run(c: &mut Tally) {
    let (mut run, mut passed_over) = (0, 0);
    for line in include_str!("../../../vectors/base.tsv").lines() {
        if case(c, line) {
            run += 1;
        } else {
            passed_over += 1;
        }
    }
    println!("{run} cases of bindings/vectors run, {passed_over} passed over");
}
