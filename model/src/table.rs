//! Document 01, "The type table": entries of three bytes, read as types.

use crate::editions::Edition;
use crate::limits;
use crate::types::{Multiplicity, Type};
use std::rc::Rc;

/// An entry as it stands in the file.
#[derive(Debug, Clone, Copy, PartialEq, Eq, PartialOrd, Ord, Hash)]
pub struct Entry {
    pub kind: u8,
    pub p: u8,
    pub q: u8,
}

pub const UNIT: u8 = 0;
pub const NUM: u8 = 1;
pub const CELL: u8 = 2;
pub const ONCE: u8 = 3;
pub const MANY: u8 = 4;
pub const ONCE_PAIR: u8 = 5;
pub const MANY_PAIR: u8 = 6;
pub const ONCE_LIST: u8 = 7;
pub const MANY_LIST: u8 = 8;

/// "Entries 0, 1, 2 are unit, num, cell of num."
pub const UNIT_ENTRY: u8 = 0;
pub const NUM_ENTRY: u8 = 1;
pub const SETTING_ENTRY: u8 = 2;
pub const FIRST_ENTRIES: [Entry; 3] = [
    entry(UNIT, 0, 0),
    entry(NUM, 0, 0),
    entry(CELL, NUM_ENTRY, 0),
];

pub const fn entry(kind: u8, p: u8, q: u8) -> Entry {
    Entry { kind, p, q }
}

impl Entry {
    pub fn bytes(self) -> [u8; limits::ENTRY_LENGTH] {
        [self.kind, self.p, self.q]
    }

    /// "5 and 7 of multiplicity once", and 3; all other kinds are many.
    pub fn is_once(self) -> bool {
        matches!(self.kind, ONCE | ONCE_PAIR | ONCE_LIST)
    }

    /// The rule that an entry keeps by itself; `lower` are the entries before it.
    pub fn keeps_its_rule(self, lower: &[Entry]) -> bool {
        let named = |x: u8| lower.get(usize::from(x));
        let is_type = |x: u8| named(x).is_some();
        let is_many = |x: u8| named(x).map_or(false, |e| !e.is_once());
        match self.kind {
            UNIT | NUM => self.p == 0 && self.q == 0,
            CELL | ONCE_LIST => is_type(self.p) && self.q == 0,
            ONCE | MANY | ONCE_PAIR => is_type(self.p) && is_type(self.q),
            MANY_PAIR => is_many(self.p) && is_many(self.q),
            MANY_LIST => is_many(self.p) && self.q == 0,
            _ => false,
        }
    }
}

/// The entries of the table part, whatever they hold; its length is a multiple of three.
pub fn entries_of(part: &[u8]) -> Vec<Entry> {
    let triples = part.chunks_exact(limits::ENTRY_LENGTH);
    triples.map(|b| entry(b[0], b[1], b[2])).collect()
}

/// A table in which every entry keeps its rule, its types as trees.
#[derive(Debug, Clone)]
pub struct Table {
    types: Vec<Rc<Type>>,
}

impl Table {
    /// The types of the entries, or `None` when one of them breaks a rule of the table.
    pub fn read(edition: Edition, entries: &[Entry]) -> Option<Table> {
        let first = entries.iter().take(3).eq(FIRST_ENTRIES.iter());
        let keeps = |(own, e): (usize, &Entry)| {
            edition.has_kind(e.kind) && e.keeps_its_rule(&entries[..own])
        };
        let kept = entries.iter().enumerate().all(keeps);
        (first && kept && all_different(entries)).then(|| Table::of_sound(entries))
    }

    fn of_sound(entries: &[Entry]) -> Table {
        let mut types: Vec<Rc<Type>> = Vec::new();
        for e in entries {
            let named = |x: u8| types[usize::from(x)].clone();
            let multiplicity = match e.is_once() {
                true => Multiplicity::Once,
                false => Multiplicity::Many,
            };
            types.push(Rc::new(match e.kind {
                UNIT => Type::Unit,
                NUM => Type::Num,
                CELL => Type::Cell(named(e.p)),
                ONCE | MANY => Type::Function(multiplicity, named(e.p), named(e.q)),
                ONCE_PAIR | MANY_PAIR => Type::Pair(multiplicity, named(e.p), named(e.q)),
                _ => Type::List(multiplicity, named(e.p)),
            }));
        }
        Table { types }
    }

    /// The type of that number, if the number is below t.
    pub fn get(&self, number: u8) -> Option<&Rc<Type>> {
        self.types.get(usize::from(number))
    }

    /// The number of a type. Equal types have equal numbers.
    pub fn number_of(&self, wanted: &Rc<Type>) -> Option<u8> {
        let found = self.types.iter().position(|t| t == wanted)?;
        u8::try_from(found).ok()
    }
}

/// "No two entries are equal."
fn all_different(entries: &[Entry]) -> bool {
    let mut sorted = entries.to_vec();
    sorted.sort();
    sorted.windows(2).all(|pair| pair[0] != pair[1])
}
