//! Recipes that are written by hand: their types, and their terms put together node by node.

use crate::editions::{self, Edition};
use crate::format::Recipe;
use crate::generate::tables::GrowingTable;
use crate::limits;
use crate::nodes::Node;
use crate::types::{Constant, Multiplicity, Shape};

/// A term, node by node.
pub type Term = Vec<Node>;

/// Types by number, for a recipe that is written by hand.
#[derive(Debug, Clone)]
pub struct Types(pub GrowingTable);

pub const UNIT: u8 = 0;
pub const NUM: u8 = 1;
pub const SETTING: u8 = 2;

impl Default for Types {
    fn default() -> Types {
        Types::of(editions::FIRST)
    }
}

impl Types {
    pub fn new() -> Types {
        Types::default()
    }

    pub fn of(edition: Edition) -> Types {
        Types(GrowingTable::new(edition, *limits::ENTRIES.end()))
    }

    pub fn many(&mut self, p: u8, q: u8) -> u8 {
        let made = self.0.function(Multiplicity::Many, p, q);
        made.expect("there are few types")
    }

    pub fn once(&mut self, p: u8, q: u8) -> u8 {
        let made = self.0.function(Multiplicity::Once, p, q);
        made.expect("there are few types")
    }

    pub fn cell(&mut self, contents: u8) -> u8 {
        self.0.cell(contents).expect("there are few types")
    }

    pub fn pair(&mut self, multiplicity: Multiplicity, p: u8, q: u8) -> u8 {
        let made = self.0.pair(multiplicity, p, q);
        made.expect("there are few types")
    }

    pub fn list(&mut self, contents: u8) -> u8 {
        let made = self.0.list(Multiplicity::Many, contents);
        made.expect("there are few types")
    }

    pub fn recipe(self, terms: Vec<Term>) -> Recipe {
        let edition = self.0.edition();
        Recipe {
            edition: edition.number,
            entries: self.0.into_entries(),
            starts: edition.zeros(terms.len()),
            terms,
        }
    }
}

pub fn apply(function: Term, argument: Term) -> Term {
    [vec![Node::Application], function, argument].concat()
}

pub fn lambda(whole: u8, body: Term) -> Term {
    [vec![Node::Lambda(whole)], body].concat()
}

pub fn variable(index: u8) -> Term {
    vec![Node::Variable(index)]
}

pub fn num(value: u16) -> Term {
    vec![Node::Num(value)]
}

pub fn unit() -> Term {
    vec![Node::Unit]
}

pub fn setting(bay: u8) -> Term {
    vec![Node::Name(bay)]
}

pub fn constant(c: Constant, whole: u8) -> Term {
    vec![Node::Constant(c, whole)]
}

pub fn pair(whole: u8, first: Term, second: Term) -> Term {
    [vec![Node::Pair(whole)], first, second].concat()
}

pub fn front(whole: u8, first: Term, rest: Term) -> Term {
    [vec![Node::Front(whole)], first, rest].concat()
}

/// In the body the second component is variable 0 and the first one variable 1.
pub fn case(shape: Shape, subject: Term, body: Term) -> Term {
    [vec![Node::Case(shape)], subject, body].concat()
}
