//! Causes 5 to 7: each part one term, within the limits, naming only what there is.

use crate::causes;
use crate::editions::Edition;
use crate::limits;
use crate::nodes::{read_node, Node, NodeForm, FORMS};
use crate::tool::faults::{Fault, Parts, Place};
use crate::tool::outline::Outline;

/// The nodes of a part as far as they can be read, and what stopped the reading.
pub struct Reading {
    pub nodes: Vec<Node>,
    pub stopped: Option<String>,
}

/// Reads a part of a file of that edition, by a loop.
pub fn read(edition: Edition, part: &[u8]) -> Reading {
    let mut nodes = Vec::new();
    let mut rest = part;
    let mut pending = 1;
    let mut stopped = None;
    while pending > 0 && stopped.is_none() {
        match read_node(edition.forms(), rest) {
            Some((node, after)) => {
                pending = pending - 1 + node.subterms();
                nodes.push(node);
                rest = after;
            }
            None => stopped = Some(what_stands(edition, rest)),
        }
    }
    if stopped.is_none() && !rest.is_empty() {
        stopped = Some(format!(
            "the term has ended, and {} bytes follow",
            rest.len()
        ));
    }
    Reading { nodes, stopped }
}

/// What stands where no node can be read.
fn what_stands(edition: Edition, rest: &[u8]) -> String {
    let tag = match rest.first() {
        Some(tag) => *tag,
        None => return "the part ends where a node should begin".to_owned(),
    };
    let has = |forms: &[NodeForm]| usize::from(tag) < forms.len();
    if has(edition.forms()) {
        return format!("the part ends inside the node with tag {tag}");
    }
    let more = match has(&FORMS) {
        true => format!(" in edition {}", edition.number),
        false => String::new(),
    };
    format!("there is no tag {tag}{more}")
}

/// Cause 5. The terms, if there is no fault.
pub fn exactly_one(recipe: &Parts) -> Result<Vec<Vec<Node>>, Fault> {
    let mut terms = Vec::new();
    for (bay, part) in recipe.terms.iter().enumerate() {
        let reading = read(recipe.edition, part);
        if let Some(found) = reading.stopped {
            let at = reading.nodes.len();
            let outline = Outline::of(&reading.nodes);
            let path = if outline.is_cut {
                outline.path(at)
            } else {
                "after the root's last byte".to_owned()
            };
            return Err(Fault {
                number: causes::NO_TERM,
                place: Place::Node(bay, at, path),
                offset: recipe.node_offset(bay, &reading.nodes, at),
                found,
            });
        }
        terms.push(reading.nodes);
    }
    Ok(terms)
}

/// A fault at a node of a whole term.
pub fn at_node(
    recipe: &Parts,
    number: u32,
    (bay, at): (usize, usize),
    nodes: &[Node],
    found: String,
) -> Fault {
    Fault {
        number,
        place: Place::Node(bay, at, Outline::of(nodes).path(at)),
        offset: recipe.node_offset(bay, nodes, at),
        found,
    }
}

/// Cause 6.
pub fn limits(recipe: &Parts, terms: &[Vec<Node>]) -> Result<(), Fault> {
    let total: usize = terms.iter().map(Vec::len).sum();
    let mut before = 0;
    for (bay, nodes) in terms.iter().enumerate() {
        let outline = Outline::of(nodes);
        let is_deep = |at: &usize| outline.above[*at].nesting > limits::MAX_NESTING;
        if let Some(at) = (0..nodes.len()).find(is_deep) {
            let found = format!("nesting {} (at most 100)", limits::MAX_NESTING + 1);
            return Err(at_node(recipe, causes::TERM_SIZE, (bay, at), nodes, found));
        }
        if before + nodes.len() > limits::MAX_RECIPE_NODES {
            let at = limits::MAX_RECIPE_NODES - before;
            let found = format!("node 1,025 of {total} (at most 1,024 over all terms)");
            return Err(at_node(recipe, causes::TERM_SIZE, (bay, at), nodes, found));
        }
        before += nodes.len();
    }
    Ok(())
}

/// Cause 7.
pub fn names_something(recipe: &Parts, terms: &[Vec<Node>]) -> Result<(), Fault> {
    let types = recipe.entries.len();
    for (bay, nodes) in terms.iter().enumerate() {
        let outline = Outline::of(nodes);
        for (at, node) in nodes.iter().enumerate() {
            let variables = outline.above[at].variables;
            let number = node.type_number().filter(|t| usize::from(*t) >= types);
            let found = match (node, number) {
                (Node::Variable(index), _) if usize::from(*index) >= variables => {
                    format!("index {index}, and {variables} variables are bound around it")
                }
                (Node::Name(k), _) if usize::from(*k) >= terms.len() => {
                    format!("name {k}, and the bays are 0 to {}", terms.len() - 1)
                }
                (_, Some(t)) => {
                    format!("type number {t}, and the entries are 0 to {}", types - 1)
                }
                _ => continue,
            };
            return Err(at_node(recipe, causes::SCOPE, (bay, at), nodes, found));
        }
    }
    Ok(())
}
