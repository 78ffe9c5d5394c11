//! Document 01, "The image": bytes to a configuration and back. Each sentence is one check. What a
//! companion byte says is document 02, T-08.

use crate::config::{Component, Configuration};
use crate::expression::Expression;
use crate::kinds::{CELL, FUTURE, OPEN_HANDLE, THREAD, USED_HANDLE};
use crate::limits;
use crate::nodes::{read_term, standings, write_term, Node, FORMS};
use std::rc::Rc;

/// "heads of six bytes: kind, companion byte, offset, length"
#[derive(Debug, Clone, Copy, PartialEq, Eq)]
pub struct Head {
    pub kind: u8,
    pub companion: u8,
    pub offset: usize,
    pub length: usize,
}

impl Head {
    fn has_expression(self) -> bool {
        self.kind == THREAD || self.kind == CELL
    }
}

/// Where the heads end.
fn end_of_heads(m: usize) -> usize {
    limits::FIRST_HEAD + limits::HEAD_LENGTH * m
}

fn two_byte_number(bytes: &[u8]) -> usize {
    usize::from(u16::from_le_bytes([bytes[0], bytes[1]]))
}

/// "It starts with a two-byte m, the number of names. Then come m heads of six bytes"
fn heads(image: &[u8]) -> Option<Vec<Head>> {
    let m = two_byte_number(image.get(..limits::FIRST_HEAD)?);
    let bytes = image.get(limits::FIRST_HEAD..end_of_heads(m))?;
    let head = |b: &[u8]| Head {
        kind: b[0],
        companion: b[1],
        offset: two_byte_number(&b[2..4]),
        length: two_byte_number(&b[4..6]),
    };
    Some(bytes.chunks_exact(limits::HEAD_LENGTH).map(head).collect())
}

/// The names that the heads of a slice give that kind, as far as there are heads.
pub fn names_of_kind(image: &[u8], wanted: u8) -> Vec<u64> {
    let count = image.get(..limits::FIRST_HEAD).unwrap_or(&[0, 0]);
    let names = usize::from(u16::from_le_bytes([count[0], count[1]]));
    let heads = image.get(limits::FIRST_HEAD..).unwrap_or(&[]);
    let heads = heads.chunks_exact(limits::HEAD_LENGTH).take(names);
    let found = heads.map(|head| head[0]);
    (0..)
        .zip(found)
        .filter(|(_, kind)| *kind == wanted)
        .map(|(name, _)| name)
        .collect()
}

/// What a companion byte is read as: "The companion byte of kinds 1, 2, 4 and 5 now holds the owning
/// bay; an open handle has the owner of its future."
fn owner(heads: &[Head], head: &Head) -> u8 {
    let holder = match head.kind {
        OPEN_HANDLE => heads.get(usize::from(head.companion)).unwrap_or(head),
        _ => head,
    };
    holder.companion
}

/// What is written as a companion byte: the owning bay, but the future's number for an open handle.
fn companion(component: &Component, owner: u8) -> u8 {
    match component {
        Component::OpenHandle(future) => *future,
        _ => owner,
    }
}

fn owners_of(heads: &[Head]) -> Vec<u8> {
    heads.iter().map(|head| owner(heads, head)).collect()
}

/// The owning bay of each name of an image, told by its heads alone; none where a head is cut.
pub fn owners(image: &[u8]) -> Vec<u8> {
    heads(image).map_or_else(Vec::new, |heads| owners_of(&heads))
}

/// The configuration of an image, or `None` when it breaks a rule or limit (refusal 13).
pub fn read_image(image: &[u8]) -> Option<Configuration> {
    let heads = heads(image)?;
    let sound = heads.len() <= limits::MAX_NAMES
        && kinds_are_known(&heads)
        && expressions_are_laid_out(&heads, image.len())
        && others_have_no_expression(&heads)
        && owners_are_bays(&heads)
        && futures_and_open_handles_match(&heads);
    if !sound {
        return None;
    }
    let terms = read_expressions(&heads, image)?;
    let nodes: usize = terms.iter().flatten().map(Vec::len).sum();
    let fits = nodes <= limits::MAX_NODES
        && terms.iter().flatten().all(|term| variables_are_bound(term))
        && terms
            .iter()
            .flatten()
            .all(|term| names_are_below(term, heads.len()));
    if !fits {
        return None;
    }
    let configuration = configuration_of(&heads, &terms);
    cells_hold_values(&configuration).then_some(configuration)
}

/// "Kinds: 1 thread, 2 cell, 3 open handle, 4 used handle, 5 future not yet bound."
fn kinds_are_known(heads: &[Head]) -> bool {
    heads
        .iter()
        .all(|head| (THREAD..=FUTURE).contains(&head.kind))
}

/// "The first expression's offset is 2 + 6m, each next begins where the former ends, and the last
/// ends with the slice; with none, the slice has 2 + 6m bytes."
fn expressions_are_laid_out(heads: &[Head], length: usize) -> bool {
    let mut end = end_of_heads(heads.len());
    for head in heads.iter().filter(|head| head.has_expression()) {
        if head.offset != end {
            return false;
        }
        end += head.length;
    }
    end == length
}

/// "Kinds 3, 4, 5 have length 0 and, as offset, the end of the expressions of lower names
/// (2 + 6m before any)."
fn others_have_no_expression(heads: &[Head]) -> bool {
    let mut end = end_of_heads(heads.len());
    for head in heads {
        if head.has_expression() {
            end = head.offset + head.length;
        } else if head.length != 0 || head.offset != end {
            return false;
        }
    }
    true
}

/// "An image with an owner not below 16 breaks the layout." Any bay that a recipe may have is an owner,
/// gaps among them or not; an open handle's companion is no owner, but a name.
fn owners_are_bays(heads: &[Head]) -> bool {
    let owned = heads.iter().filter(|head| head.kind != OPEN_HANDLE);
    owned
        .map(|head| usize::from(head.companion))
        .all(|owner| owner < limits::MAX_BAYS)
}

/// "Each kind-5 name is the companion of exactly one open handle, and each open handle's companion
/// is of kind 5."
fn futures_and_open_handles_match(heads: &[Head]) -> bool {
    let mut handles_of = vec![0usize; heads.len()];
    for head in heads.iter().filter(|head| head.kind == OPEN_HANDLE) {
        match handles_of.get_mut(usize::from(head.companion)) {
            Some(count) => *count += 1,
            None => return false,
        }
    }
    let matches = |(head, count): (&Head, usize)| count == usize::from(head.kind == FUTURE);
    heads.iter().zip(handles_of).all(matches)
}

/// "Expressions use the node forms", each slice exactly one term.
fn read_expressions(heads: &[Head], image: &[u8]) -> Option<Vec<Option<Vec<Node>>>> {
    let read = |head: &Head| {
        if !head.has_expression() {
            return Some(None);
        }
        let bytes = image.get(head.offset..head.offset + head.length)?;
        read_term(&FORMS, bytes).map(Some)
    };
    heads.iter().map(read).collect()
}

/// "variables are bound inside them"
fn variables_are_bound(term: &[Node]) -> bool {
    let standing = standings(term);
    term.iter().zip(standing).all(|(node, here)| match node {
        Node::Variable(index) => usize::from(*index) < here.variables,
        _ => true,
    })
}

/// "names are below m"
fn names_are_below(term: &[Node], m: usize) -> bool {
    term.iter().all(|node| match node {
        Node::Name(y) => usize::from(*y) < m,
        _ => true,
    })
}

/// "Cells hold values."
fn cells_hold_values(configuration: &Configuration) -> bool {
    configuration
        .components
        .iter()
        .all(|component| match component {
            Component::Cell(e) => e.is_value(),
            _ => true,
        })
}

fn configuration_of(heads: &[Head], terms: &[Option<Vec<Node>>]) -> Configuration {
    let component = |(head, term): (&Head, &Option<Vec<Node>>)| {
        let expression = term
            .as_ref()
            .map(|nodes| Rc::new(Expression::of_nodes(nodes)));
        match (head.kind, expression) {
            (THREAD, Some(e)) => Component::Thread(e),
            (_, Some(e)) => Component::Cell(e),
            (OPEN_HANDLE, None) => Component::OpenHandle(head.companion),
            (USED_HANDLE, None) => Component::UsedHandle,
            _ => Component::Future,
        }
    };
    let components = heads.iter().zip(terms).map(component).collect();
    let owners = owners_of(heads);
    Configuration { components, owners }
}

/// The image of a configuration.
pub fn write_image(configuration: &Configuration) -> Vec<u8> {
    let m = configuration.names();
    let mut image = (m as u16).to_le_bytes().to_vec();
    let mut expressions = Vec::new();
    for (component, owner) in configuration.components.iter().zip(&configuration.owners) {
        let kind = match component {
            Component::Thread(_) => THREAD,
            Component::Cell(_) => CELL,
            Component::OpenHandle(_) => OPEN_HANDLE,
            Component::UsedHandle => USED_HANDLE,
            Component::Future => FUTURE,
        };
        let offset = end_of_heads(m) + expressions.len();
        if let Some(e) = component.expression() {
            expressions.extend(write_term(&e.nodes()));
        }
        let length = end_of_heads(m) + expressions.len() - offset;
        image.extend([kind, companion(component, *owner)]);
        image.extend((offset as u16).to_le_bytes());
        image.extend((length as u16).to_le_bytes());
    }
    image.extend(expressions);
    image
}
