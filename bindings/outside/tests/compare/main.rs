//! The library held against the plain implementation, on inputs by chance and on the cases of bindings/vectors. Every disagreement is
//! printed with its seed; every function's answers are counted by number, and a number that a function can give must have been given.
//! Arguments: the first seed and how many seeds (1 and 12 without them).
mod library;
mod made;
mod vectors;

use outside::model::{parse, Doc};
use outside::random::Random;
use outside::{accept, include, model, table, text, Fault, Plain};
use std::collections::BTreeMap;
use std::fmt::Debug;

/// What was answered how often, and what did not agree.
#[derive(Default)]
pub struct Tally {
    seed: u64,
    answers: BTreeMap<(&'static str, u16), usize>,
    pub wrong: usize,
}

impl Tally {
    /// Compares two answers of one call and counts them; the input is printed if they differ.
    pub fn same<T: PartialEq + Debug>(
        &mut self,
        name: &'static str,
        ours: Result<T, Fault>,
        theirs: Result<T, Fault>,
        input: &dyn Debug,
    ) {
        let number = theirs.as_ref().err().map_or(0, |f| f.number);
        *self.answers.entry((name, number)).or_default() += 1;
        if ours != theirs {
            self.disagree(name, &format!("library {ours:?}, plain {theirs:?}"), input);
        }
    }

    pub fn disagree(&mut self, name: &str, what: &str, input: &dyn Debug) {
        self.wrong += 1;
        if self.wrong <= 10 {
            println!("DISAGREE in {name}, seed {}: {what}\n  input {input:?}", self.seed);
        }
    }

    pub fn read(&mut self, s: &[u8], m: usize, r: usize) {
        self.same("read", library::read(s, m, r), text::read(s, m, r), &(String::from_utf8_lossy(s), m, r));
    }

    pub fn compile(&mut self, s: &[u8], m: usize, r: usize) {
        self.same("compile", library::compile(s, m, r), model::compile(s, m, r), &(String::from_utf8_lossy(s), m, r));
    }

    pub fn write(&mut self, t: &Plain, room: usize) {
        self.same("write", library::write(t, room), text::write(t, room), &(t, room));
    }

    pub fn check(&mut self, t: &Plain) {
        self.same("check", library::check(t), table::check(t), t);
        self.same("check_receiver", library::check_receiver(t), table::check_receiver(t), t);
    }

    pub fn accept(&mut self, t: &Plain, nodes: &[u16]) {
        self.same("accept", library::accept(t, nodes), accept::accept(t, nodes), &(t, nodes));
    }

    /// Answers whether a witness was handed out; one that is handed out is judged.
    pub fn include(&mut self, a: &Plain, b: &Plain, room: usize) {
        let found = library::include(a, b, room);
        let included = found.as_ref().map(|w| w.is_none()).map_err(|f| *f);
        self.same("include", included, include::include(a, b, room), &(a, b, room));
        if let Ok(Some(nodes)) = &found {
            *self.answers.entry(("include: witnesses judged", 0)).or_default() += 1;
            if let Some(what) = include::bad_witness(a, b, nodes) {
                self.disagree("include", what, &(a, b, nodes));
            }
        }
        if let (Ok(None), true) = (&found, a.symbols <= 3) {
            *self.answers.entry(("include: included, small trees tried", 0)).or_default() += 1;
            if include::small_witness(a, b, 4) {
                self.disagree("include", "a small tree shows that it is not included", &(a, b));
            }
        }
    }
}

fn symbols(r: &mut Random) -> usize {
    if r.once_in(6) {
        r.from_to(1, 40)
    } else {
        r.from_to(1, 4)
    }
}

fn room(r: &mut Random, least: usize) -> usize {
    match r.below(12) {
        0 => least - 1,
        1 => r.below(least),
        2 => least + 3,
        _ => least,
    }
}

/// Tables: check, write, read back, accept.
fn tables(c: &mut Tally, r: &mut Random) {
    let y = symbols(r);
    let mut t = if r.once_in(2) { made::table(r, y) } else { made::receiver(r, y) };
    let mut s = text::text_of(&t).into_bytes();
    for _ in 0..r.below(4) {
        if !r.once_in(3) {
            made::damage_table(r, &mut t);
        }
        made::damage_text(r, &mut s);
    }
    if r.once_in(4) {
        made::loosen_receiver(r, &mut t);
    }
    c.check(&t);
    c.write(&t, room(r, 8192));
    c.read(&s, room(r, 60), room(r, 2400));
    if table::check(&t).is_ok() {
        c.read(text::text_of(&t).as_bytes(), 60, 2400);
    }
    for _ in 0..3 {
        let mut nodes = made::tree(r, y);
        if r.once_in(3) {
            made::damage_tree(r, &mut nodes);
        }
        c.accept(&t, &nodes);
    }
}

/// Rule texts as long as they can be, and longer.
fn long_texts(c: &mut Tally, r: &mut Random) {
    let mut s = format!("T\t40\t{}\n", r.from_to(58, 62));
    for q in 0..60 {
        s += &format!("S\t{q}\t3\t{}\n", q % 2);
    }
    for i in 0..r.from_to(595, 605) {
        s += &format!("P\t{}\t{}\t{}\n", i % 60, i / 60, r.below(60));
    }
    c.read(s.as_bytes(), 60, 2400);
    let mut s = s.replacen("T\t40\t58", "T\t40\t60", 1).replacen("T\t40\t59", "T\t40\t60", 1).into_bytes();
    c.read(&s, 60, 2400);
    made::damage_text(r, &mut s);
    c.read(&s, 60, 2400);
}

/// Models: compile, then documents judged by the compiled table and by derivation.
fn model_texts(c: &mut Tally, r: &mut Random) {
    let y = if r.once_in(8) { r.from_to(5, 40) } else { r.from_to(1, 5) };
    let most = r.from_to(1, 8);
    let mut s = made::models(r, y, most);
    for _ in 0..r.below(3) {
        made::damage_text(r, &mut s);
    }
    c.compile(&s, room(r, 60), room(r, 2400));
    let Ok(t) = library::compile(&s, 60, 2400) else {
        return;
    };
    c.check(&t);
    c.write(&t, 8192);
    let mut models = parse(&s).expect("it was compiled");
    for _ in 0..12 {
        let start = if r.once_in(10) { r.below(y) as u16 } else { models.start };
        let Some(mut d) = models.some_document(start, r, 6) else {
            continue;
        };
        if r.once_in(2) {
            change(r, &mut d, t.symbols as usize);
        }
        let nodes = d.nodes();
        if nodes.len() > 7320 {
            continue;
        }
        let derived = models.derives(&d);
        c.same("documents derived", library::accept(&t, &nodes), Ok(derived), &(String::from_utf8_lossy(&s), &d));
    }
}

/// One element changed, put in or taken out.
fn change(r: &mut Random, d: &mut Doc, y: usize) {
    let at = r.below(d.size());
    let e = d.element(at);
    match r.below(3) {
        0 => e.symbol = r.below(y) as u16,
        1 => {
            let place = r.below(e.children.len() + 1);
            e.children.insert(place, Doc { symbol: r.below(y) as u16, children: vec![] });
        }
        _ => {
            e.children.pop();
        }
    }
}

/// `*` over a choice of so many symbols, postfixes at the limit of tokens, and one beyond.
fn long_models(c: &mut Tally, r: &mut Random) {
    let y = r.from_to(20, 30);
    let choice: String = (1..y).map(|s| format!(" {s} |")).collect();
    c.compile(format!("D\t{y}\t0\nM\t0\t0{choice} *\n").as_bytes(), 60, 2400);
    let stars = r.from_to(196, 202);
    c.compile(format!("D\t1\t0\nM\t0\t0{}\n", " *".repeat(stars)).as_bytes(), 60, 2400);
    let empties = r.from_to(98, 102);
    c.compile(format!("D\t2\t1\nM\t1\te{}\n", " e ,".repeat(empties)).as_bytes(), 60, 2400);
    let places = r.from_to(50, 62);
    let text = format!("D\t1\t0\nM\t0\t0{}\n", " 0 ,".repeat(places));
    c.compile(text.as_bytes(), 60, 2400);
    c.compile(format!("D\t2\t1\nM\t1\t{}0\n", "0 ".repeat(r.from_to(100, 220))).as_bytes(), 60, 2400);
}

/// Inclusion of tables by chance, of a receiver with rules taken out or put in, and of models that are nearly the same.
fn inclusions(c: &mut Tally, r: &mut Random) {
    let y = symbols(r);
    let mut b = made::receiver(r, y);
    let mut a = if r.once_in(2) { made::table(r, y) } else { b.clone() };
    if r.once_in(2) && a.rules.len() > 4 {
        let at = 4 * r.below(a.rules.len() / 4);
        a.rules.drain(at..at + 4);
    }
    if r.once_in(8) {
        a.symbols = r.from_to(1, 40) as u16;
    }
    if r.once_in(6) {
        made::damage_table(r, &mut a);
    }
    match r.below(6) {
        0 => made::damage_table(r, &mut b),
        1 => made::loosen_receiver(r, &mut b),
        _ => {}
    }
    let most = 2 * a.marks.len() * (b.marks.len() + 1);
    let lent = room(r, most.max(1));
    c.include(&a, &b, lent);
    near_inclusions(c, r);
}

fn near_inclusions(c: &mut Tally, r: &mut Random) {
    let y = r.from_to(1, 6);
    let s = made::models(r, y, 5);
    let near = made::near_models(r, &s, y);
    if let (Ok(a), Ok(b)) = (model::compile(&s, 60, 2400), model::compile(&near, 60, 2400)) {
        c.include(&a, &b, 7320);
        c.include(&b, &a, 7320);
        let swapped = Plain { symbols: b.symbols, marks: b.marks.clone(), rules: made::table(r, y).rules };
        c.include(&swapped, &a, 7320);
    }
}

/// The numbers that each function can give; 0 stands for an answer.
const GIVEN: [(&str, &[u16]); 7] = [
    ("read", &[0, 1, 2, 3, 4, 5, 6]),
    ("write", &[0, 1, 2, 4, 5, 6]),
    ("compile", &[0, 1, 13, 14, 15, 16]),
    ("check", &[0, 2, 4, 5, 6]),
    ("check_receiver", &[0, 2, 4, 5, 6, 7, 8, 9]),
    ("accept", &[0, 2, 4, 5, 6, 12]),
    ("include", &[0, 2, 4, 5, 6, 7, 8, 9, 10, 11]),
];

fn main() {
    let mut words = std::env::args().skip(1).filter_map(|w| w.parse::<u64>().ok());
    let (first, count) = (words.next().unwrap_or(1), words.next().unwrap_or(12));
    let mut c = Tally::default();
    vectors::run(&mut c);
    println!("seeds {first} to {}", first + count - 1);
    for seed in first..first + count {
        c.seed = seed;
        let mut r = Random::new(seed);
        for round in 0..250 {
            tables(&mut c, &mut r);
            model_texts(&mut c, &mut r);
            inclusions(&mut c, &mut r);
            if round % 25 == 0 {
                long_texts(&mut c, &mut r);
                long_models(&mut c, &mut r);
            }
        }
    }
    for ((name, number), times) in &c.answers {
        let what = if *number == 0 { "answered".to_string() } else { format!("refused {number}") };
        println!("{times:8}  {name}: {what}");
    }
    for (name, numbers) in GIVEN {
        for n in numbers.iter().filter(|n| !c.answers.contains_key(&(name, **n))) {
            c.wrong += 1;
            println!("MISSING: {name} never gave {n}");
        }
    }
    println!("{} answers compared, {} disagreements", c.answers.values().sum::<usize>(), c.wrong);
    std::process::exit(if c.wrong == 0 { 0 } else { 1 });
}
