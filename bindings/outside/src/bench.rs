//! The inclusion test timed, the library's and the plain one's, on the same inputs in one run. Times measured under an emulator say
//! nothing; to count instructions there, `bench library INPUT TIMES` and `bench plain INPUT TIMES` make so many calls and no more.
use baranduk::{Inclusion, Table};
use outside::include::{include, product};
use outside::{model, Plain};
use std::hint::black_box;
use std::time::{Duration, Instant};

const ROOM: usize = baranduk::WITNESS_NUMBERS;

/// The table of a model text in which symbol 0 has `*` over a choice of all symbols; with `others` each other one has the model `e`.
fn star(symbols: usize, others: bool) -> Plain {
    let choice: String = (1..symbols).map(|s| format!(" {s} |")).collect();
    let mut text = format!("D\t{symbols}\t0\nM\t0\t0{choice} *\n");
    if others {
        text.extend((1..symbols).map(|s| format!("M\t{s}\te\n")));
    }
    model::compile(text.as_bytes(), 60, 2400).expect("a good model text")
}

/// n states and 10 n rules in which a join moves on by a step that its right part says; no state that is reached is final. With different
/// steps for the two tables nearly every pair is found.
fn steps(n: u16, step: u16) -> Plain {
    let used = n - 1;
    let mut rules: Vec<u16> = (0..10).flat_map(|s| [0, s, 0, s]).collect();
    for left in 0..used {
        for right in 0..10 {
            rules.extend([1, left, right, (left + 1 + step * right) % used]);
        }
    }
    let mut marks = vec![6; n as usize];
    marks[used as usize] = 7;
    Plain { symbols: 10, marks, rules }
}

/// A ring of n states that each join moves on by one, and a state for the leaf that is joined on.
fn ring(n: u16, is_final: impl Fn(u16) -> bool) -> Plain {
    let mut rules = vec![0, 0, 0, 0, 0, 1, 0, n];
    rules.extend((0..n).flat_map(|q| [1, q, n, (q + 1) % n]));
    let mut marks: Vec<u16> = (0..n).map(|q| 2 + is_final(q) as u16).collect();
    marks.push(4);
    Plain { symbols: 2, marks, rules }
}

fn inputs() -> Vec<(String, Plain, Plain)> {
    let pair = |name: &str, a: Plain, b: Plain| (name.to_string(), a, b);
    let mut all = vec![
        pair("`*` over a choice of 23 symbols, in itself", star(23, false), star(23, false)),
        pair("`*` over a choice of 20 symbols, each other one `e`, in itself", star(20, true), star(20, true)),
        pair("rings of 59 and 58: the deepest witness", ring(59, |q| q == 58), ring(58, |q| q != 57)),
    ];
    for n in [15, 30, 60] {
        all.push(pair("steps: nearly every pair is found", steps(n, 1), steps(n, 2)));
    }
    all
}

fn lent(t: &Plain) -> Table<'_> {
    Table { symbols: t.symbols, marks: &t.marks, rules: &t.rules }
}

/// The time of one call: as many calls as fill a tenth of a second.
fn time(mut call: impl FnMut()) -> Duration {
    call();
    let (begin, mut calls) = (Instant::now(), 0);
    while begin.elapsed() < Duration::from_millis(100) {
        call();
        calls += 1;
    }
    begin.elapsed() / calls
}

fn by_library(a: &Plain, b: &Plain, witness: &mut [u16]) -> Inclusion {
    baranduk::include(lent(a), lent(b), witness).expect("good tables")
}

fn by_plain(a: &Plain, b: &Plain) -> bool {
    include(a, b, ROOM).expect("good tables")
}

fn said(answer: Inclusion) -> String {
    match answer {
        Inclusion::Included => "included".to_string(),
        Inclusion::Witness(nodes) => format!("witness of {nodes} nodes"),
    }
}

fn main() {
    let words: Vec<String> = std::env::args().skip(1).collect();
    let mut witness = vec![0; ROOM];
    if let [side, input, times] = words.as_slice() {
        let (name, a, b) = &inputs()[input.parse::<usize>().expect("an input's number")];
        for _ in 0..times.parse().expect("a number of calls") {
            if side == "library" {
                black_box(by_library(a, b, &mut witness));
            } else {
                black_box(by_plain(a, b));
            }
        }
        println!("{times} calls of {side}: {name}");
        return;
    }
    println!("{:<62} {:>13} {:>11} {:>6} {:>12} {:>12} {:>8}", "input", "states", "rules", "pairs", "library", "plain", "ratio");
    for (name, a, b) in inputs() {
        let answer = by_library(&a, &b, &mut witness);
        assert_eq!(answer == Inclusion::Included, by_plain(&a, &b), "the two sides disagree: {name}");
        let library = time(|| _ = black_box(by_library(&a, &b, &mut witness)));
        let plain = time(|| _ = black_box(by_plain(&a, &b)));
        println!(
            "{:<62} {:>6} {:>6} {:>5} {:>5} {:>6} {:>9.1} us {:>9.1} us {:>8.2}  {}",
            name,
            a.marks.len(),
            b.marks.len(),
            a.rules.len() / 4,
            b.rules.len() / 4,
            product(&a, &b).pairs,
            library.as_nanos() as f64 / 1000.0,
            plain.as_nanos() as f64 / 1000.0,
            plain.as_secs_f64() / library.as_secs_f64(),
            said(answer),
        );
    }
}
