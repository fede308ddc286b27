//! Baranduk for Rust: rule tables, rule texts, acceptance, content models and the inclusion test.
//!
//! The functions call the static library of crates/embed, each function of which is proved to take every input, to end, and to answer as
//! its contract says. Slices of Rust cannot be null, dangle or overlap where one is written, so nothing is left to the caller here.
//!
//! ```
//! use baranduk::{include, Inclusion, TableBuf, WITNESS_NUMBERS};
//!
//! let k = TableBuf::compile(b"D\t3\t0\nM\t0\t1 *\nM\t1\t2 ?\nM\t2\te\n")?;
//! let some = TableBuf::compile(b"D\t3\t0\nM\t0\t1 +\nM\t1\t2 ?\nM\t2\te\n")?;
//! let mut witness = [0; WITNESS_NUMBERS];
//! assert_eq!(include(some.table(), k.table(), &mut witness), Ok(Inclusion::Included));
//! // a document without children is one of k, and none of the other
//! assert_eq!(include(k.table(), some.table(), &mut witness), Ok(Inclusion::Witness(1)));
//! assert_eq!(witness[..2], [0, baranduk::LEAF]);
//! # Ok::<(), baranduk::Refusal>(())
//! ```
mod raw;

use raw::Answer;
use std::fmt;

/// The least number of marks and of rule numbers in slices that are written, and of bytes for a rule text.
pub const STATES: usize = 60;
pub const RULE_NUMBERS: usize = 2400;
pub const TEXT: usize = 8192;

/// So many numbers suffice for every witness.
pub const WITNESS_NUMBERS: usize = 2 * STATES * (STATES + 1);

/// The second number of a leaf.
pub const LEAF: u16 = 65535;

/// A numbered refusal. Every slice is then as it was.
#[derive(Clone, Copy, Debug, PartialEq, Eq, Hash)]
pub struct Refusal {
    /// 1 to 16.
    pub number: u16,
    /// 1 for the sender, 2 for the receiver, 0 for neither.
    pub side: u16,
    /// A line, rule, state or node counted from 1, or 0 for the whole.
    pub place: usize,
}

impl fmt::Display for Refusal {
    fn fmt(&self, f: &mut fmt::Formatter<'_>) -> fmt::Result {
        write!(f, "refusal {} (side {}, place {})", self.number, self.side, self.place)
    }
}

impl std::error::Error for Refusal {}

/// A table that stands at the fronts of two slices.
#[derive(Clone, Copy, Debug, PartialEq, Eq)]
pub struct Sizes {
    pub symbols: u16,
    pub states: usize,
    pub rules: usize,
}

/// A table as it is lent: one mark a state, four numbers a rule.
#[derive(Clone, Copy, Debug, PartialEq, Eq)]
pub struct Table<'a> {
    pub symbols: u16,
    pub marks: &'a [u16],
    pub rules: &'a [u16],
}

/// What makes a table of a text: [`read`] and [`compile`].
type Maker = fn(&[u8], &mut [u16], &mut [u16]) -> Result<Sizes, Refusal>;

/// A table of its own.
#[derive(Clone, Debug, PartialEq, Eq)]
pub struct TableBuf {
    pub symbols: u16,
    pub marks: Vec<u16>,
    pub rules: Vec<u16>,
}

impl TableBuf {
    /// Reads a rule text.
    ///
    /// ```
    /// let t = baranduk::TableBuf::read(b"T\t1\t1\nS\t0\t3\t1\nL\t0\t0\n")?;
    /// assert_eq!((t.symbols, t.marks, t.rules), (1, vec![7], vec![0, 0, 0, 0]));
    /// # Ok::<(), baranduk::Refusal>(())
    /// ```
    pub fn read(text: &[u8]) -> Result<TableBuf, Refusal> {
        TableBuf::by(text, read)
    }

    /// Turns a model text into a table.
    pub fn compile(text: &[u8]) -> Result<TableBuf, Refusal> {
        TableBuf::by(text, compile)
    }

    /// The table, lent.
    pub fn table(&self) -> Table<'_> {
        Table { symbols: self.symbols, marks: &self.marks, rules: &self.rules }
    }

    fn by(text: &[u8], made: Maker) -> Result<TableBuf, Refusal> {
        let (mut marks, mut rules) = (vec![0; STATES], vec![0; RULE_NUMBERS]);
        let sizes = made(text, &mut marks, &mut rules)?;
        marks.truncate(sizes.states);
        rules.truncate(4 * sizes.rules);
        Ok(TableBuf { symbols: sizes.symbols, marks, rules })
    }
}

/// What the inclusion test answers.
#[derive(Clone, Copy, Debug, PartialEq, Eq)]
pub enum Inclusion {
    /// Every tree that the sender accepts the receiver accepts.
    Included,
    /// So many nodes at the front of the slice are a tree that the sender accepts and the receiver rejects.
    Witness(usize),
}

fn refused_or<T>(a: Answer, value: T) -> Result<T, Refusal> {
    match a.number {
        0 => Ok(value),
        number => Err(Refusal { number, side: a.side, place: a.place }),
    }
}

fn sizes(a: Answer) -> Result<Sizes, Refusal> {
    refused_or(a, Sizes { symbols: a.first as u16, states: a.second, rules: a.third })
}

/// Reads a rule text: marks and rules stand at the fronts of the slices, the rest is unchanged. `marks` has at least [`STATES`] numbers,
/// `rules` [`RULE_NUMBERS`]. Refusals 1 to 6.
///
/// ```
/// use baranduk::{read, Refusal, RULE_NUMBERS, STATES};
///
/// let (mut marks, mut rules) = ([0; STATES], [0; RULE_NUMBERS]);
/// let sizes = read(b"T\t1\t1\nS\t0\t3\t1\nL\t0\t0\n", &mut marks, &mut rules)?;
/// assert_eq!((sizes.symbols, sizes.states, sizes.rules), (1, 1, 1));
/// assert_eq!((marks[0], &rules[..4]), (7, &[0, 0, 0, 0][..]));
/// // an empty text ends too soon: 3 at line 1
/// assert_eq!(read(b"", &mut marks, &mut rules), Err(Refusal { number: 3, side: 0, place: 1 }));
/// # Ok::<(), Refusal>(())
/// ```
pub fn read(text: &[u8], marks: &mut [u16], rules: &mut [u16]) -> Result<Sizes, Refusal> {
    // SAFETY: each pointer and count is a slice of Rust; those written are lent exclusively.
    sizes(unsafe {
        raw::baranduk_read(text.as_ptr(), text.len(), marks.as_mut_ptr(), marks.len(), rules.as_mut_ptr(), rules.len())
    })
}

/// Writes a table as a rule text at the front of `text`, which has at least [`TEXT`] bytes, and tells how many bytes stand there.
/// Refusals 4, 2, 5, 6, then 1.
///
/// ```
/// use baranduk::{write, Table, TEXT};
///
/// let mut text = [0; TEXT];
/// let bytes = write(Table { symbols: 1, marks: &[7], rules: &[0, 0, 0, 0] }, &mut text)?;
/// assert_eq!(&text[..bytes], b"T\t1\t1\nS\t0\t3\t1\nL\t0\t0\n");
/// # Ok::<(), baranduk::Refusal>(())
/// ```
pub fn write(table: Table<'_>, text: &mut [u8]) -> Result<usize, Refusal> {
    let Table { symbols, marks, rules } = table;
    // SAFETY: as in `read`.
    let a = unsafe {
        raw::baranduk_write(symbols, marks.as_ptr(), marks.len(), rules.as_ptr(), rules.len(), text.as_mut_ptr(), text.len())
    };
    refused_or(a, a.first)
}

/// Turns a model text into a table, in slices as [`read`]'s. Refusals 1, 13, 15, 14, 16.
///
/// ```
/// use baranduk::{compile, Refusal, RULE_NUMBERS, STATES};
///
/// let (mut marks, mut rules) = ([0; STATES], [0; RULE_NUMBERS]);
/// let sizes = compile(b"D\t1\t0\nM\t0\te\n", &mut marks, &mut rules)?;
/// assert_eq!((sizes.states, sizes.rules), (2, 2));
/// // line 2 has an ambiguous model
/// let refusal = compile(b"D\t1\t0\nM\t0\t0 * 0 ,\n", &mut marks, &mut rules);
/// assert_eq!(refusal, Err(Refusal { number: 14, side: 0, place: 2 }));
/// # Ok::<(), Refusal>(())
/// ```
pub fn compile(text: &[u8], marks: &mut [u16], rules: &mut [u16]) -> Result<Sizes, Refusal> {
    // SAFETY: as in `read`.
    sizes(unsafe {
        raw::baranduk_compile(text.as_ptr(), text.len(), marks.as_mut_ptr(), marks.len(), rules.as_mut_ptr(), rules.len())
    })
}

/// Checks a table. Refusals 4, 2, 5, 6.
///
/// ```
/// use baranduk::{check, Refusal, Table};
///
/// assert_eq!(check(Table { symbols: 1, marks: &[7], rules: &[0, 0, 0, 0] }), Ok(()));
/// // the second rule equals the first
/// let twice = Table { symbols: 1, marks: &[7], rules: &[0, 0, 0, 0, 0, 0, 0, 0] };
/// assert_eq!(check(twice), Err(Refusal { number: 6, side: 0, place: 2 }));
/// ```
pub fn check(table: Table<'_>) -> Result<(), Refusal> {
    let Table { symbols, marks, rules } = table;
    // SAFETY: as in `read`.
    refused_or(unsafe { raw::baranduk_check(symbols, marks.as_ptr(), marks.len(), rules.as_ptr(), rules.len()) }, ())
}

/// Checks a table and that it can be a receiver's: deterministic and factorized. Refusals 4, 2, 5, 6, then 7, 8, 9.
///
/// ```
/// use baranduk::{check_receiver, Refusal, Table};
///
/// // two leaf rules of one symbol
/// let two = Table { symbols: 1, marks: &[2, 4], rules: &[0, 0, 0, 0, 0, 0, 0, 1] };
/// assert_eq!(check_receiver(two), Err(Refusal { number: 7, side: 0, place: 2 }));
/// ```
pub fn check_receiver(table: Table<'_>) -> Result<(), Refusal> {
    let Table { symbols, marks, rules } = table;
    // SAFETY: as in `read`.
    let a = unsafe { raw::baranduk_check_receiver(symbols, marks.as_ptr(), marks.len(), rules.as_ptr(), rules.len()) };
    refused_or(a, ())
}

/// Is the tree accepted by the table? Refusals 4, 2, 5, 6, then 12.
///
/// ```
/// use baranduk::{accept, Table, LEAF};
///
/// let table = Table { symbols: 2, marks: &[7], rules: &[0, 0, 0, 0] };
/// assert_eq!(accept(table, &[0, LEAF]), Ok(true));
/// assert_eq!(accept(table, &[1, LEAF]), Ok(false));
/// ```
pub fn accept(table: Table<'_>, nodes: &[u16]) -> Result<bool, Refusal> {
    let Table { symbols, marks, rules } = table;
    // SAFETY: as in `read`.
    let a = unsafe {
        raw::baranduk_accept(symbols, marks.as_ptr(), marks.len(), rules.as_ptr(), rules.len(), nodes.as_ptr(), nodes.len())
    };
    refused_or(a, a.first == 1)
}

/// Is every tree that the sender accepts accepted by the receiver? If not, a tree that is not stands at the front of `witness`, which has
/// at least 2 × sender states × (receiver states + 1) numbers; [`WITNESS_NUMBERS`] always suffice. Refusals of the sender's table (side
/// 1), of the receiver's (side 2), then 10 and 11.
///
/// ```
/// use baranduk::{include, Inclusion, Table, WITNESS_NUMBERS};
///
/// let leaf = Table { symbols: 1, marks: &[7], rules: &[0, 0, 0, 0] };
/// let none = Table { symbols: 1, marks: &[], rules: &[] };
/// let mut witness = [0; WITNESS_NUMBERS];
/// assert_eq!(include(leaf, leaf, &mut witness), Ok(Inclusion::Included));
/// assert_eq!(include(none, leaf, &mut witness), Ok(Inclusion::Included));
/// assert_eq!(include(leaf, none, &mut witness), Ok(Inclusion::Witness(1)));
/// ```
pub fn include(sender: Table<'_>, receiver: Table<'_>, witness: &mut [u16]) -> Result<Inclusion, Refusal> {
    // SAFETY: as in `read`.
    let a = unsafe {
        raw::baranduk_include(
            sender.symbols,
            sender.marks.as_ptr(),
            sender.marks.len(),
            sender.rules.as_ptr(),
            sender.rules.len(),
            receiver.symbols,
            receiver.marks.as_ptr(),
            receiver.marks.len(),
            receiver.rules.as_ptr(),
            receiver.rules.len(),
            witness.as_mut_ptr(),
            witness.len(),
        )
    };
    refused_or(a, if a.first == 0 { Inclusion::Included } else { Inclusion::Witness(a.first) })
}
