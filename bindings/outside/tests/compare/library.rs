//! The library's answers in the words of the plain implementation. Each call lends slices with known contents and sees afterwards that
//! they hold what they must: unchanged after a refusal, and behind what was told.
use baranduk::{Inclusion, Refusal, Sizes, Table};
use outside::{Fault, Plain};

pub fn lent(t: &Plain) -> Table<'_> {
    Table { symbols: t.symbols, marks: &t.marks, rules: &t.rules }
}

fn told(r: Refusal) -> Fault {
    Fault { number: r.number, side: r.side, place: r.place }
}

/// Contents that no answer writes by accident.
fn filled(n: usize) -> Vec<u16> {
    (0..n).map(|i| 50_000 + (i % 9973) as u16).collect()
}

type Reader = fn(&[u8], &mut [u16], &mut [u16]) -> Result<Sizes, Refusal>;

fn table_by(made: Reader, text: &[u8], m: usize, r: usize) -> Result<Plain, Fault> {
    let (mut marks, mut rules) = (filled(m), filled(r));
    match made(text, &mut marks, &mut rules) {
        Err(f) => {
            assert!(marks == filled(m) && rules == filled(r), "a refusal changed a slice");
            Err(told(f))
        }
        Ok(s) => {
            assert!(marks[s.states..] == filled(m)[s.states..], "the marks behind the table changed");
            assert!(rules[4 * s.rules..] == filled(r)[4 * s.rules..], "the rules behind the table changed");
            Ok(Plain { symbols: s.symbols, marks: marks[..s.states].to_vec(), rules: rules[..4 * s.rules].to_vec() })
        }
    }
}

pub fn read(text: &[u8], marks: usize, rules: usize) -> Result<Plain, Fault> {
    table_by(baranduk::read, text, marks, rules)
}

pub fn compile(text: &[u8], marks: usize, rules: usize) -> Result<Plain, Fault> {
    table_by(baranduk::compile, text, marks, rules)
}

pub fn write(t: &Plain, room: usize) -> Result<String, Fault> {
    let mut text = vec![b'#'; room];
    match baranduk::write(lent(t), &mut text) {
        Err(f) => {
            assert!(text.iter().all(|b| *b == b'#'), "a refusal changed the text slice");
            Err(told(f))
        }
        Ok(n) => {
            assert!(text[n..].iter().all(|b| *b == b'#'), "the bytes behind the text changed");
            Ok(String::from_utf8(text[..n].to_vec()).expect("plain bytes"))
        }
    }
}

pub fn check(t: &Plain) -> Result<(), Fault> {
    baranduk::check(lent(t)).map_err(told)
}

pub fn check_receiver(t: &Plain) -> Result<(), Fault> {
    baranduk::check_receiver(lent(t)).map_err(told)
}

pub fn accept(t: &Plain, nodes: &[u16]) -> Result<bool, Fault> {
    baranduk::accept(lent(t), nodes).map_err(told)
}

/// No witness, or the nodes of one.
pub fn include(a: &Plain, b: &Plain, room: usize) -> Result<Option<Vec<u16>>, Fault> {
    let mut witness = filled(room);
    match baranduk::include(lent(a), lent(b), &mut witness) {
        Err(f) => {
            assert!(witness == filled(room), "a refusal changed the witness slice");
            Err(told(f))
        }
        Ok(Inclusion::Included) => {
            assert!(witness == filled(room), "`included` changed the witness slice");
            Ok(None)
        }
        Ok(Inclusion::Witness(n)) => {
            assert!(witness[2 * n..] == filled(room)[2 * n..], "the numbers behind the witness changed");
            Ok(Some(witness[..2 * n].to_vec()))
        }
    }
}
