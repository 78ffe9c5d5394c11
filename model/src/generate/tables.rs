//! A type table that grows as terms need types.

use crate::draw::Draw;
use crate::editions::Edition;
use crate::limits;
use crate::table::{
    entry, Entry, CELL, FIRST_ENTRIES, MANY, MANY_LIST, MANY_PAIR, ONCE, ONCE_LIST, ONCE_PAIR,
};
use crate::types::{Multiplicity, Shape};
use std::collections::HashMap;

/// The entries so far, each type once, of the kinds that the edition has.
#[derive(Debug, Clone)]
pub struct GrowingTable {
    edition: Edition,
    entries: Vec<Entry>,
    numbers: HashMap<Entry, u8>,
    most: usize,
}

impl GrowingTable {
    /// Entries 0 to 2, and room for `most` entries in all.
    pub fn new(edition: Edition, most: usize) -> GrowingTable {
        let mut table = GrowingTable {
            edition,
            entries: Vec::new(),
            numbers: HashMap::new(),
            most: most.min(*limits::ENTRIES.end()),
        };
        for first in FIRST_ENTRIES {
            table.number_of(first);
        }
        table
    }

    pub fn entries(&self) -> &[Entry] {
        &self.entries
    }

    pub fn into_entries(self) -> Vec<Entry> {
        self.entries
    }

    pub fn edition(&self) -> Edition {
        self.edition
    }

    /// Whether the edition has pairs and lists.
    pub fn has_compounds(&self) -> bool {
        self.edition.has_kind(MANY_LIST)
    }

    pub fn len(&self) -> usize {
        self.entries.len()
    }

    pub fn is_empty(&self) -> bool {
        self.entries.is_empty()
    }

    /// The number of a type, new or not; `None` when a new one finds no room.
    fn number_of(&mut self, wanted: Entry) -> Option<u8> {
        if let Some(number) = self.numbers.get(&wanted) {
            return Some(*number);
        }
        if self.entries.len() >= self.most.max(3) || !self.edition.has_kind(wanted.kind) {
            return None;
        }
        let number = u8::try_from(self.entries.len()).ok()?;
        self.entries.push(wanted);
        self.numbers.insert(wanted, number);
        Some(number)
    }

    pub fn get(&self, number: u8) -> Entry {
        self.entries[usize::from(number)]
    }

    pub fn is_once(&self, number: u8) -> bool {
        self.get(number).is_once()
    }

    /// Multiplicity, parameter and result of a function type.
    pub fn function_parts(&self, number: u8) -> Option<(Multiplicity, u8, u8)> {
        let e = self.get(number);
        match e.kind {
            ONCE => Some((Multiplicity::Once, e.p, e.q)),
            MANY => Some((Multiplicity::Many, e.p, e.q)),
            _ => None,
        }
    }

    /// The contents of a cell type.
    pub fn contents(&self, number: u8) -> Option<u8> {
        let e = self.get(number);
        (e.kind == CELL).then_some(e.p)
    }

    /// The types of the two components of a pair, or of a list's front and its rest.
    pub fn components(&self, shape: Shape, number: u8) -> Option<(u8, u8)> {
        let e = self.get(number);
        match (shape, e.kind) {
            (Shape::Pair, ONCE_PAIR | MANY_PAIR) => Some((e.p, e.q)),
            (Shape::List, ONCE_LIST | MANY_LIST) => Some((e.p, number)),
            _ => None,
        }
    }

    /// What a value of that type would be taken apart as.
    pub fn shape(&self, number: u8) -> Option<Shape> {
        let mut shapes = [Shape::Pair, Shape::List].into_iter();
        shapes.find(|shape| self.components(*shape, number).is_some())
    }

    /// Nothing is of that type but what is made of it: there is no first once list.
    pub fn is_once_list(&self, number: u8) -> bool {
        self.get(number).kind == ONCE_LIST
    }

    /// A pair; once where its contents ask for it.
    pub fn pair(&mut self, wanted: Multiplicity, p: u8, q: u8) -> Option<u8> {
        let once = wanted == Multiplicity::Once || self.is_once(p) || self.is_once(q);
        let kind = if once { ONCE_PAIR } else { MANY_PAIR };
        self.number_of(entry(kind, p, q))
    }

    /// A list; once where its contents ask for it.
    pub fn list(&mut self, wanted: Multiplicity, p: u8) -> Option<u8> {
        let once = wanted == Multiplicity::Once || self.is_once(p);
        let kind = if once { ONCE_LIST } else { MANY_LIST };
        self.number_of(entry(kind, p, 0))
    }

    pub fn cell(&mut self, contents: u8) -> Option<u8> {
        self.number_of(entry(CELL, contents, 0))
    }

    pub fn function(&mut self, multiplicity: Multiplicity, p: u8, q: u8) -> Option<u8> {
        let kind = match multiplicity {
            Multiplicity::Once => ONCE,
            Multiplicity::Many => MANY,
        };
        self.number_of(entry(kind, p, q))
    }

    /// A new type over the types so far, if there is room and it is new.
    pub fn add_any(&mut self, draw: &mut Draw) -> Option<u8> {
        let p = self.any(draw);
        let q = self.any(draw);
        if self.has_compounds() && draw.one_in(2) {
            return self.add_compound(draw, p, q);
        }
        let wanted = match draw.below(5) {
            0 => entry(CELL, p, 0),
            1 | 2 => entry(ONCE, p, q),
            _ => entry(MANY, p, q),
        };
        self.number_of(wanted)
    }

    fn add_compound(&mut self, draw: &mut Draw, p: u8, q: u8) -> Option<u8> {
        match draw.below(8) {
            0 | 1 => self.pair(Multiplicity::Once, p, q),
            2..=4 => self.pair(Multiplicity::Many, p, q),
            5 if draw.one_in(2) => self.list(Multiplicity::Once, p),
            _ => {
                let contents = self.any_many(draw);
                self.list(Multiplicity::Many, contents)
            }
        }
    }

    /// A pair or a list, of the table or new.
    pub fn any_compound(&mut self, draw: &mut Draw) -> Option<u8> {
        let of_table = |number: &u8| self.shape(*number).is_some();
        let found: Vec<u8> = (0..=u8::MAX).take(self.len()).filter(of_table).collect();
        if found.is_empty() || draw.one_in(3) {
            let (p, q) = (self.any(draw), self.any(draw));
            return self.add_compound(draw, p, q);
        }
        Some(draw.pick(&found))
    }

    /// Some type of the table, the first ones more often.
    pub fn any(&self, draw: &mut Draw) -> u8 {
        let bound = if draw.one_in(2) {
            self.len().min(6)
        } else {
            self.len()
        };
        draw.below(bound) as u8
    }

    /// Some type of multiplicity many.
    pub fn any_many(&self, draw: &mut Draw) -> u8 {
        for _ in 0..4 {
            let number = self.any(draw);
            if !self.is_once(number) {
                return number;
            }
        }
        draw.below(3) as u8
    }

    /// More types, until there are that many.
    pub fn fill(&mut self, draw: &mut Draw, wanted: usize) {
        let mut tries = 20 * wanted;
        while self.len() < wanted && tries > 0 {
            self.add_any(draw);
            tries -= 1;
        }
    }
}
