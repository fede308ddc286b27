//! Model texts by derivatives: a model is a regular expression over places, each bearing a symbol. What a word may go on with is found by
//! taking the derivative by each place or symbol and looking whether anything is left of it.
use crate::random::Random;
use crate::text::{lines, number};
use crate::{fault, Fault, Plain, LEAF, MOST_RULES, MOST_STATES, MOST_SYMBOLS};
use std::collections::HashMap;

type Id = usize;

#[derive(Clone, Debug, PartialEq, Eq, Hash)]
enum Node {
    Nothing,
    Empty,
    Place(usize),
    Seq(Id, Id),
    Choice(Vec<Id>),
    Star(Id),
    Plus(Id),
}

/// A derivative is taken by one place, or by every place that bears a symbol.
#[derive(Clone, Copy, Debug, PartialEq, Eq, Hash)]
enum By {
    Place(usize),
    Symbol(u16),
}

/// One model: its expressions, kept once each; the symbols of its places; the expression of the whole.
pub struct Model {
    nodes: Vec<Node>,
    ids: HashMap<Node, Id>,
    derived: HashMap<(Id, By), Id>,
    pub places: Vec<u16>,
    whole: Id,
}

impl Model {
    fn put(&mut self, node: Node) -> Id {
        if let Some(id) = self.ids.get(&node) {
            return *id;
        }
        self.nodes.push(node.clone());
        self.ids.insert(node, self.nodes.len() - 1);
        self.nodes.len() - 1
    }

    fn seq(&mut self, a: Id, b: Id) -> Id {
        match (self.nodes[a].clone(), self.nodes[b].clone()) {
            (Node::Nothing, _) => a,
            (_, Node::Nothing) => b,
            (Node::Empty, _) => b,
            (_, Node::Empty) => a,
            (Node::Seq(x, y), _) => {
                let rest = self.seq(y, b);
                self.seq(x, rest)
            }
            _ => self.put(Node::Seq(a, b)),
        }
    }

    fn choice(&mut self, a: Id, b: Id) -> Id {
        let mut all = vec![];
        for x in [a, b] {
            match &self.nodes[x] {
                Node::Nothing => {}
                Node::Choice(more) => all.extend(more),
                _ => all.push(x),
            }
        }
        all.sort_unstable();
        all.dedup();
        match all.len() {
            0 => self.put(Node::Nothing),
            1 => all[0],
            _ => self.put(Node::Choice(all)),
        }
    }

    fn nullable(&self, a: Id) -> bool {
        match &self.nodes[a] {
            Node::Nothing | Node::Place(_) => false,
            Node::Empty | Node::Star(_) => true,
            Node::Seq(x, y) => self.nullable(*x) && self.nullable(*y),
            Node::Choice(all) => all.iter().any(|x| self.nullable(*x)),
            Node::Plus(x) => self.nullable(*x),
        }
    }

    fn derive(&mut self, a: Id, by: By) -> Id {
        if let Some(d) = self.derived.get(&(a, by)) {
            return *d;
        }
        let d = match self.nodes[a].clone() {
            Node::Nothing | Node::Empty => self.put(Node::Nothing),
            Node::Place(p) => {
                let hit = match by {
                    By::Place(q) => p == q,
                    By::Symbol(s) => self.places[p] == s,
                };
                self.put(if hit { Node::Empty } else { Node::Nothing })
            }
            Node::Seq(x, y) => self.derive_seq(x, y, by),
            Node::Choice(all) => {
                let mut sum = self.put(Node::Nothing);
                for x in all {
                    let d = self.derive(x, by);
                    sum = self.choice(sum, d);
                }
                sum
            }
            Node::Star(x) | Node::Plus(x) => {
                let d = self.derive(x, by);
                let star = self.put(Node::Star(x));
                self.seq(d, star)
            }
        };
        self.derived.insert((a, by), d);
        d
    }

    fn derive_seq(&mut self, x: Id, y: Id, by: By) -> Id {
        let first = self.derive(x, by);
        let first = self.seq(first, y);
        if !self.nullable(x) {
            return first;
        }
        let second = self.derive(y, by);
        self.choice(first, second)
    }

    fn is_nothing(&self, a: Id) -> bool {
        self.nodes[a] == Node::Nothing
    }

    /// Is the list of symbols a word of the model?
    pub fn has_word(&mut self, word: &[u16]) -> bool {
        let rest = word.iter().fold(self.whole, |at, s| self.derive(at, By::Symbol(*s)));
        self.nullable(rest)
    }

    /// For the beginning and for each place: the places that can come next, and whether a word may end.
    fn walk(&mut self) -> Vec<(Vec<usize>, bool)> {
        let count = self.places.len();
        let mut at: Vec<Option<Id>> = vec![None; count + 1];
        at[0] = Some(self.whole);
        let mut found = vec![(vec![], false); count + 1];
        let mut todo = vec![0];
        while let Some(q) = todo.pop() {
            let here = at[q].expect("it was reached");
            found[q].1 = self.nullable(here);
            for y in 0..count {
                let next = self.derive(here, By::Place(y));
                if self.is_nothing(next) {
                    continue;
                }
                found[q].0.push(y);
                if at[y + 1].is_none() {
                    at[y + 1] = Some(next);
                    todo.push(y + 1);
                }
            }
        }
        found
    }

    /// A word by chance, or none if it grows too long.
    fn some_word(&mut self, symbols: u16, r: &mut Random, most: usize) -> Option<Vec<u16>> {
        let (mut word, mut at) = (vec![], self.whole);
        loop {
            let mut nexts = vec![];
            for s in 0..symbols {
                let d = self.derive(at, By::Symbol(s));
                if !self.is_nothing(d) {
                    nexts.push((s, d));
                }
            }
            if self.nullable(at) && (nexts.is_empty() || r.once_in(3)) {
                return Some(word);
            }
            if nexts.is_empty() || word.len() == most {
                return None;
            }
            let (s, d) = *r.pick(&nexts);
            word.push(s);
            at = d;
        }
    }
}

/// What one token makes of the models so far.
fn token(m: &mut Model, stack: &mut Vec<Id>, symbols: u16, token: &[u8]) -> Option<Id> {
    Some(match token {
        b"e" => m.put(Node::Empty),
        b"," | b"|" => {
            let (b, a) = (stack.pop()?, stack.pop()?);
            if token == b"," {
                m.seq(a, b)
            } else {
                m.choice(a, b)
            }
        }
        b"*" => m.put(Node::Star(stack.pop()?)),
        b"+" => m.put(Node::Plus(stack.pop()?)),
        b"?" => {
            let (a, empty) = (stack.pop()?, m.put(Node::Empty));
            m.choice(a, empty)
        }
        _ => {
            let s = number(token).filter(|s| *s < symbols)?;
            m.places.push(s);
            m.put(Node::Place(m.places.len() - 1))
        }
    })
}

/// A model in postfix.
fn postfix(symbols: u16, field: &[u8]) -> Option<Model> {
    let mut m = Model { nodes: vec![], ids: HashMap::new(), derived: HashMap::new(), places: vec![], whole: 0 };
    let tokens: Vec<&[u8]> = field.split(|b| *b == b' ').collect();
    if tokens.len() > 200 {
        return None;
    }
    let mut stack: Vec<Id> = vec![];
    for t in tokens {
        let made = token(&mut m, &mut stack, symbols, t)?;
        stack.push(made);
    }
    m.whole = stack.pop()?;
    stack.is_empty().then_some(m)
}

/// A model text: symbols, start, and the models with their symbols, in the order of the lines.
pub struct Models {
    pub symbols: u16,
    pub start: u16,
    pub models: Vec<(u16, Model)>,
}

fn header(line: &[u8]) -> Option<Models> {
    let fields: Vec<&[u8]> = line.split(|b| *b == b'\t').collect();
    match fields.as_slice() {
        [b"D", y, s] => {
            let symbols = number(y).filter(|y| (1..=MOST_SYMBOLS).contains(y))?;
            let start = number(s).filter(|s| *s < symbols)?;
            Some(Models { symbols, start, models: vec![] })
        }
        _ => None,
    }
}

fn model_line(so_far: &Models, line: &[u8]) -> Option<(u16, Model)> {
    let fields: Vec<&[u8]> = line.split(|b| *b == b'\t').collect();
    match fields.as_slice() {
        [b"M", s, tokens] => {
            let symbol = number(s).filter(|s| *s < so_far.symbols)?;
            if so_far.models.iter().any(|(known, _)| *known == symbol) {
                return None;
            }
            Some((symbol, postfix(so_far.symbols, tokens)?))
        }
        _ => None,
    }
}

pub fn parse(text: &[u8]) -> Result<Models, Fault> {
    let all = lines(text);
    let first = all.first().copied().flatten();
    let mut found = first.and_then(header).ok_or(fault(13, 1))?;
    for (i, line) in all.iter().enumerate().skip(1) {
        let model = line.and_then(|l| model_line(&found, l)).ok_or(fault(13, i + 1))?;
        found.models.push(model);
    }
    Ok(found)
}

/// The rules of a table by their kind.
#[derive(Default)]
struct Kinds {
    leaves: Vec<[u16; 4]>,
    ends: Vec<[u16; 4]>,
    joins: Vec<[u16; 4]>,
}

impl Kinds {
    /// Adds the rules of a model whose first state is `initial`; none if the model is ambiguous.
    fn add(&mut self, symbol: u16, model: &mut Model, initial: usize) -> Option<()> {
        self.leaves.push([0, symbol, 0, initial as u16]);
        for (q, (nexts, may_end)) in model.walk().into_iter().enumerate() {
            let state = (initial + q) as u16;
            if may_end {
                self.ends.push([2, state, 0, symbol]);
            }
            let mut like: Vec<u16> = nexts.iter().map(|y| model.places[*y]).collect();
            self.joins.extend(nexts.iter().map(|y| [1, state, model.places[*y], (initial + 1 + y) as u16]));
            like.sort_unstable();
            if like.windows(2).any(|w| w[0] == w[1]) {
                return None;
            }
        }
        Some(())
    }

    /// One kind behind the other, each rising.
    fn rules(mut self) -> Vec<[u16; 4]> {
        self.leaves.sort_unstable();
        self.ends.sort_unstable();
        self.joins.sort_unstable();
        [self.leaves, self.ends, self.joins].concat()
    }
}

pub fn compile(text: &[u8], marks_room: usize, rules_room: usize) -> Result<Plain, Fault> {
    if marks_room < MOST_STATES || rules_room < 4 * MOST_RULES {
        return Err(fault(1, 0));
    }
    let mut found = parse(text)?;
    let symbols = found.symbols as usize;
    let states = symbols + found.models.iter().map(|(_, m)| 1 + m.places.len()).sum::<usize>();
    if states > MOST_STATES {
        return Err(fault(15, 0));
    }
    let mut marks = vec![4; symbols];
    marks[found.start as usize] = 5;
    marks.resize(states, 2);
    let (mut kinds, mut initial) = (Kinds::default(), symbols);
    for (i, (symbol, model)) in found.models.iter_mut().enumerate() {
        kinds.add(*symbol, model, initial).ok_or(fault(14, i + 2))?;
        initial += 1 + model.places.len();
    }
    let rules = kinds.rules();
    if rules.len() > MOST_RULES {
        return Err(fault(16, 0));
    }
    Ok(Plain { symbols: found.symbols, marks, rules: rules.concat() })
}

/// A document: an element with documents under it.
#[derive(Clone, Debug)]
pub struct Doc {
    pub symbol: u16,
    pub children: Vec<Doc>,
}

impl Doc {
    /// The binary form: each child is joined on from the left.
    pub fn nodes(&self) -> Vec<u16> {
        let mut nodes = vec![];
        self.join_on(&mut nodes);
        nodes
    }

    fn join_on(&self, nodes: &mut Vec<u16>) -> usize {
        nodes.extend([self.symbol, LEAF]);
        let mut at = nodes.len() / 2 - 1;
        for c in &self.children {
            let child = c.join_on(nodes);
            nodes.extend([at as u16, child as u16]);
            at = nodes.len() / 2 - 1;
        }
        at
    }

    pub fn size(&self) -> usize {
        1 + self.children.iter().map(Doc::size).sum::<usize>()
    }

    /// The element at a position of the document, counted in its order.
    pub fn element(&mut self, at: usize) -> &mut Doc {
        let mut left = at;
        if left == 0 {
            return self;
        }
        left -= 1;
        for c in &mut self.children {
            if left < c.size() {
                return c.element(left);
            }
            left -= c.size();
        }
        panic!("no such element")
    }
}

impl Models {
    /// Is it a document of its symbol?
    fn is_document(&mut self, d: &Doc) -> bool {
        let word: Vec<u16> = d.children.iter().map(|c| c.symbol).collect();
        match self.models.iter_mut().find(|(s, _)| *s == d.symbol) {
            Some((_, m)) => m.has_word(&word) && d.children.iter().all(|c| self.is_document(c)),
            None => false,
        }
    }

    /// Do the models derive the document?
    pub fn derives(&mut self, d: &Doc) -> bool {
        d.symbol == self.start && self.is_document(d)
    }

    /// A document of a symbol by chance, if one is found.
    pub fn some_document(&mut self, symbol: u16, r: &mut Random, depth: usize) -> Option<Doc> {
        if depth == 0 {
            return None;
        }
        let symbols = self.symbols;
        let (_, m) = self.models.iter_mut().find(|(s, _)| *s == symbol)?;
        let word = m.some_word(symbols, r, 12)?;
        let children = word.into_iter().map(|s| self.some_document(s, r, depth - 1)).collect::<Option<Vec<Doc>>>()?;
        Some(Doc { symbol, children })
    }
}
