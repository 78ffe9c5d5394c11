//! Whether a file says something about pairs, lists and cases: in it, or by its refusal.

use crate::causes;
use crate::nodes::Node;
use crate::table::{Entry, ONCE_PAIR};
use crate::tags;
use crate::tool::faults::{fault, terms, Fault, Parts, Place};
use crate::tool::outline::Outline;
use crate::tool::text::node_types::node_types;

fn is_compound(node: &Node) -> bool {
    node.tag() >= tags::PAIR
}

fn is_compound_entry(e: &Entry) -> bool {
    e.kind >= ONCE_PAIR
}

/// Whether an accepted file has a pair, a front or a case.
pub fn stands_in(file: &[u8]) -> bool {
    let parts = Parts::of(file);
    let nodes = |part: &&[u8]| terms::read(parts.edition, part).nodes;
    parts
        .terms
        .iter()
        .flat_map(nodes)
        .any(|node| is_compound(&node))
}

/// Whether a refused file has its cause in a pair, a list or a case.
pub fn refuses(file: &[u8]) -> bool {
    fault(file).map_or(false, |fault| is_cause(file, &fault))
}

pub fn is_cause(file: &[u8], fault: &Fault) -> bool {
    let parts = Parts::of(file);
    let (bay, at) = match &fault.place {
        Place::Entry(number) => return is_compound_entry(&parts.entries[*number]),
        Place::Node(bay, at, _) => (*bay, *at),
        _ => return false,
    };
    let nodes = terms::read(parts.edition, parts.terms[bay]).nodes;
    let outline = Outline::of(&nodes);
    match fault.number {
        causes::TYPE => {
            let parent = outline.above[at].parent;
            parent.map_or(false, |(parent, _)| is_compound(&nodes[parent]))
        }
        causes::BAY_ONCE => {
            let root = node_types(&parts.entries, &nodes, &outline)[0];
            root.map_or(false, |t| is_compound_entry(&parts.entries[usize::from(t)]))
        }
        _ => nodes.get(at).map_or(false, is_compound),
    }
}
