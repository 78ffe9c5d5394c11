//! The type number of each subterm, as far as it can be told. An application has the result of
//! its function, whatever its argument is; a case has the type of its body.

use crate::nodes::{end_of_term, Node};
use crate::table::{Entry, MANY, MANY_LIST, MANY_PAIR, ONCE, ONCE_LIST, ONCE_PAIR};
use crate::tool::outline::{Binder, Outline};
use crate::types::Shape;

const UNIT_ENTRY: u8 = 0;
const NUM_ENTRY: u8 = 1;
const SETTING_ENTRY: u8 = 2;

/// Parameter and result of a function type.
pub fn function(entries: &[Entry], number: u8) -> Option<(u8, u8)> {
    let e = entries.get(usize::from(number))?;
    (e.kind == ONCE || e.kind == MANY).then_some((e.p, e.q))
}

/// The types of the two components of a pair type, or of a list's front and its rest.
pub fn components(entries: &[Entry], shape: Shape, number: u8) -> Option<(u8, u8)> {
    let e = entries.get(usize::from(number))?;
    match (shape, e.kind) {
        (Shape::Pair, ONCE_PAIR | MANY_PAIR) => Some((e.p, e.q)),
        (Shape::List, ONCE_LIST | MANY_LIST) => Some((e.p, number)),
        _ => None,
    }
}

/// By position: the type number of the subterm that begins there.
pub fn node_types(entries: &[Entry], nodes: &[Node], outline: &Outline) -> Vec<Option<u8>> {
    let mut found = Types {
        entries,
        nodes,
        outline,
        types: vec![None; nodes.len()],
    };
    found.all();
    found.types
}

struct Types<'a> {
    entries: &'a [Entry],
    nodes: &'a [Node],
    outline: &'a Outline,
    types: Vec<Option<u8>>,
}

impl Types<'_> {
    /// A node gets its type when its subterms have theirs, and a case's subject comes before the
    /// variables of its body: by a stack of the nodes whose subterms are still to come.
    fn all(&mut self) {
        let mut open: Vec<(usize, usize)> = Vec::new();
        for (at, node) in self.nodes.iter().enumerate() {
            open.push((at, node.subterms()));
            while let Some((node, 0)) = open.last().copied() {
                open.pop();
                self.types[node] = self.type_of(node);
                if let Some((_, pending)) = open.last_mut() {
                    *pending -= 1;
                }
            }
        }
    }

    fn type_of(&self, at: usize) -> Option<u8> {
        match self.nodes[at] {
            Node::Unit => Some(UNIT_ENTRY),
            Node::Num(_) => Some(NUM_ENTRY),
            Node::Name(_) => Some(SETTING_ENTRY),
            Node::Constant(_, t) | Node::Lambda(t) | Node::Pair(t) | Node::Front(t) => {
                known(self.entries, t)
            }
            Node::Variable(index) => {
                let binder = self.outline.binder(at, index)?;
                variable_type(self.entries, self.nodes, &self.types, binder)
            }
            Node::Application => {
                let (_, result) = function(self.entries, self.types[at + 1]?)?;
                Some(result)
            }
            Node::Case(_) => self.types[end_of_term(self.nodes, at + 1)],
        }
    }
}

/// The type of a variable: what its lambda says, or the subject of its case, whose type is known.
pub fn variable_type(
    entries: &[Entry],
    nodes: &[Node],
    types: &[Option<u8>],
    binder: Binder,
) -> Option<u8> {
    match nodes[binder.node] {
        Node::Case(shape) => {
            let subject = types[binder.node + 1]?;
            let (first, second) = components(entries, shape, subject)?;
            Some(if binder.place == 0 { first } else { second })
        }
        other => Some(function(entries, other.type_number()?)?.0),
    }
}

fn known(entries: &[Entry], number: u8) -> Option<u8> {
    (usize::from(number) < entries.len()).then_some(number)
}
