//! The examples that the scope works by hand, over the static library.
use baranduk::{
    accept, compile, include, read, write, Inclusion, Refusal, TableBuf, LEAF, RULE_NUMBERS, STATES, TEXT, WITNESS_NUMBERS,
};

const K: &str = "D\t3\t0\nM\t0\t1 *\nM\t1\t2 ?\nM\t2\te\n";

fn table(text: &str) -> TableBuf {
    TableBuf::compile(text.as_bytes()).expect("a good model text")
}

fn refused(text: &str) -> Refusal {
    TableBuf::compile(text.as_bytes()).expect_err("a bad model text")
}

fn compared(sender: &TableBuf, receiver: &TableBuf) -> (Inclusion, Vec<u16>) {
    let mut witness = vec![0; WITNESS_NUMBERS];
    let answer = include(sender.table(), receiver.table(), &mut witness).expect("good tables");
    if let Inclusion::Witness(nodes) = answer {
        witness.truncate(2 * nodes);
    }
    (answer, witness)
}

#[test]
fn k_is_written_as_the_scope_has_it() {
    let mut text = [0; TEXT];
    let bytes = write(table(K).table(), &mut text).expect("room");
    let expected = "T\t3\t8\nS\t0\t2\t1\nS\t1\t2\t0\nS\t2\t2\t0\nS\t3\t1\t0\nS\t4\t1\t0\nS\t5\t1\t0\nS\t6\t1\t0\nS\t7\t1\t0\n\
        L\t0\t3\nL\t1\t5\nL\t2\t7\nE\t3\t0\nE\t4\t0\nE\t5\t1\nE\t6\t1\nE\t7\t2\nP\t3\t1\t4\nP\t4\t1\t4\nP\t5\t2\t6\n";
    assert_eq!(std::str::from_utf8(&text[..bytes]), Ok(expected));
    assert_eq!(TableBuf::read(expected.as_bytes()), Ok(table(K)));
}

#[test]
fn k_accepts_and_rejects() {
    let k = table(K);
    let zero_one = [0, LEAF, 1, LEAF, 0, 1];
    let zero_one_two = [0, LEAF, 1, LEAF, 2, LEAF, 1, 2, 0, 3];
    for good in [&[0, LEAF][..], &zero_one, &zero_one_two] {
        assert_eq!(accept(k.table(), good), Ok(true));
    }
    let zero_two = [0, LEAF, 2, LEAF, 0, 1];
    let left_two = [0, LEAF, 1, LEAF, 0, 1, 2, LEAF, 2, 3];
    for bad in [&[1, LEAF][..], &zero_two, &left_two] {
        assert_eq!(accept(k.table(), bad), Ok(false));
    }
}

#[test]
fn ambiguous_models() {
    for bad in ["0 1 , 0 2 , |", "0 * 0 ,", "0 ? 0 ? ,"] {
        assert_eq!(refused(&format!("D\t3\t0\nM\t0\t{bad}\n")), Refusal { number: 14, side: 0, place: 2 });
    }
    for good in ["0 0 ,", "0 * *", "0 1 | *"] {
        table(&format!("D\t3\t0\nM\t0\t{good}\n"));
    }
}

#[test]
fn inclusion_of_k() {
    let k = table(K);
    let some = table(&K.replace("1 *", "1 +"));
    assert_eq!(compared(&some, &k).0, Inclusion::Included);
    assert_eq!(compared(&k, &some), (Inclusion::Witness(1), vec![0, LEAF]));
    let bare = table(&K.replace("2 ?", "e"));
    let (answer, witness) = compared(&k, &bare);
    assert_eq!(answer, Inclusion::Witness(5));
    assert_eq!((accept(k.table(), &witness), accept(bare.table(), &witness)), (Ok(true), Ok(false)));
}

#[test]
fn tables_without_states() {
    let none = TableBuf { symbols: 3, marks: vec![], rules: vec![] };
    assert_eq!(compared(&none, &table(K)).0, Inclusion::Included);
    assert_eq!(compared(&none, &none).0, Inclusion::Included);
    assert_eq!(compared(&table(K), &none).0, Inclusion::Witness(1));
}

#[test]
fn the_limits() {
    let star = |n: usize| format!("D\t{n}\t0\nM\t0\t0{} *\n", (1..n).map(|s| format!(" {s} |")).collect::<String>());
    let full = table(&star(23));
    assert_eq!((full.marks.len(), full.rules.len() / 4), (47, 577));
    assert_eq!(refused(&star(24)), Refusal { number: 16, side: 0, place: 0 });
    let (mut marks, mut rules) = ([0; STATES], [0; RULE_NUMBERS]);
    assert_eq!(read(b"", &mut marks, &mut rules), Err(Refusal { number: 3, side: 0, place: 1 }));
    assert_eq!(compile(b"", &mut marks, &mut rules), Err(Refusal { number: 13, side: 0, place: 1 }));
    let states = |n: usize| format!("T\t1\t{n}\n{}", (0..n).map(|q| format!("S\t{q}\t3\t0\n")).collect::<String>());
    assert_eq!(TableBuf::read(states(60).as_bytes()).map(|t| t.marks.len()), Ok(60));
    assert_eq!(TableBuf::read(states(61).as_bytes()), Err(Refusal { number: 4, side: 0, place: 1 }));
}
