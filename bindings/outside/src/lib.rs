//! The scope implemented a second time, plainly and apart from the library: tables are lists of rules, a set of states is a bit mask, the
//! inclusion test follows every set of states that the receiver can have, and models are read by derivatives. Nothing here is a
//! translation of the library's code, and nothing calls it; tests/compare.rs holds the two against each other.
pub mod accept;
pub mod include;
pub mod model;
pub mod random;
pub mod table;
pub mod text;

/// A refusal: number, side, place.
#[derive(Clone, Copy, Debug, PartialEq, Eq, Hash, PartialOrd, Ord)]
pub struct Fault {
    pub number: u16,
    pub side: u16,
    pub place: usize,
}

pub fn fault(number: u16, place: usize) -> Fault {
    Fault { number, side: 0, place }
}

/// A table: a symbol count, a mark a state, four numbers a rule. It need not be a good one.
#[derive(Clone, Debug, PartialEq, Eq)]
pub struct Plain {
    pub symbols: u16,
    pub marks: Vec<u16>,
    pub rules: Vec<u16>,
}

pub const MOST_SYMBOLS: u16 = 40;
pub const MOST_STATES: usize = 60;
pub const MOST_RULES: usize = 600;
pub const MOST_NODES: usize = 3660;
pub const LEAF: u16 = 65535;
