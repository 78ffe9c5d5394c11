//! Documents 01 and 02, the table of node forms; a term as the list of its nodes, root first.

use crate::tags;
use crate::types::{Constant, Shape};

/// What follows a tag: the number of bytes, the number of subterms, and how many variables more the
/// last subterm has.
pub struct NodeForm {
    pub after: usize,
    pub subterms: usize,
    pub binders: usize,
}

const fn form(after: usize, subterms: usize, binders: usize) -> NodeForm {
    NodeForm {
        after,
        subterms,
        binders,
    }
}

/// The node forms, by tag.
pub static FORMS: [NodeForm; 14] = [
    form(1, 0, 0),
    form(1, 1, 1),
    form(0, 2, 0),
    form(0, 0, 0),
    form(2, 0, 0),
    form(1, 0, 0),
    form(1, 0, 0),
    form(1, 0, 0),
    form(1, 0, 0),
    form(1, 0, 0),
    form(1, 2, 0),
    form(1, 2, 0),
    form(0, 2, 2),
    form(0, 2, 2),
];

/// A node with what stands after its tag.
#[derive(Debug, Clone, Copy, PartialEq, Eq)]
pub enum Node {
    Variable(u8),
    Lambda(u8),
    Application,
    Unit,
    Num(u16),
    Constant(Constant, u8),
    Name(u8),
    Pair(u8),
    Front(u8),
    Case(Shape),
}

impl Node {
    pub fn tag(self) -> u8 {
        match self {
            Node::Variable(_) => tags::VARIABLE,
            Node::Lambda(_) => tags::LAMBDA,
            Node::Application => tags::APPLICATION,
            Node::Unit => tags::UNIT,
            Node::Num(_) => tags::NUM,
            Node::Constant(Constant::Cell, _) => tags::CELL,
            Node::Constant(Constant::Exch, _) => tags::EXCH,
            Node::Constant(Constant::Thread, _) => tags::THREAD,
            Node::Constant(Constant::Handle, _) => tags::HANDLE,
            Node::Name(_) => tags::NAME,
            Node::Pair(_) => tags::PAIR,
            Node::Front(_) => tags::LIST,
            Node::Case(Shape::Pair) => tags::CASE_PAIR,
            Node::Case(Shape::List) => tags::CASE_LIST,
        }
    }

    fn form(self) -> &'static NodeForm {
        &FORMS[usize::from(self.tag())]
    }

    pub fn subterms(self) -> usize {
        self.form().subterms
    }

    /// The variables that the last subterm has more.
    pub fn binders(self) -> usize {
        self.form().binders
    }

    /// The type number that the node carries, if it carries one.
    pub fn type_number(self) -> Option<u8> {
        match self {
            Node::Lambda(t) | Node::Constant(_, t) | Node::Pair(t) | Node::Front(t) => Some(t),
            _ => None,
        }
    }

    /// The place of that type number.
    pub fn type_number_mut(&mut self) -> Option<&mut u8> {
        match self {
            Node::Lambda(t) | Node::Constant(_, t) | Node::Pair(t) | Node::Front(t) => Some(t),
            _ => None,
        }
    }

    /// The node of that tag, from the bytes after it.
    fn read(tag: u8, after: &[u8]) -> Node {
        match tag {
            tags::VARIABLE => Node::Variable(after[0]),
            tags::LAMBDA => Node::Lambda(after[0]),
            tags::APPLICATION => Node::Application,
            tags::UNIT => Node::Unit,
            tags::NUM => Node::Num(u16::from_le_bytes([after[0], after[1]])),
            tags::CELL => Node::Constant(Constant::Cell, after[0]),
            tags::EXCH => Node::Constant(Constant::Exch, after[0]),
            tags::THREAD => Node::Constant(Constant::Thread, after[0]),
            tags::HANDLE => Node::Constant(Constant::Handle, after[0]),
            tags::NAME => Node::Name(after[0]),
            tags::PAIR => Node::Pair(after[0]),
            tags::LIST => Node::Front(after[0]),
            tags::CASE_PAIR => Node::Case(Shape::Pair),
            _ => Node::Case(Shape::List),
        }
    }

    pub fn write(self, out: &mut Vec<u8>) {
        out.push(self.tag());
        match self {
            Node::Application | Node::Unit | Node::Case(_) => {}
            Node::Num(value) => out.extend_from_slice(&value.to_le_bytes()),
            Node::Variable(x) | Node::Name(x) => out.push(x),
            Node::Lambda(t) | Node::Constant(_, t) | Node::Pair(t) | Node::Front(t) => out.push(t),
        }
    }
}

/// The node at the front of the bytes, and the bytes after it: `None` for a tag without a form or a
/// cut.
pub fn read_node<'b>(forms: &[NodeForm], bytes: &'b [u8]) -> Option<(Node, &'b [u8])> {
    let (&tag, after_tag) = bytes.split_first()?;
    let form = forms.get(usize::from(tag))?;
    let after = after_tag.get(..form.after)?;
    Some((Node::read(tag, after), &after_tag[form.after..]))
}

/// The bytes read as exactly one term of these forms: `None` for an unknown tag, a cut, or bytes
/// over. A loop that counts the subterms still to come, for the bytes are unchecked.
pub fn read_term(forms: &[NodeForm], bytes: &[u8]) -> Option<Vec<Node>> {
    let mut nodes = Vec::new();
    let mut rest = bytes;
    let mut pending = 1;
    while pending > 0 {
        let (node, after) = read_node(forms, rest)?;
        pending = pending - 1 + node.subterms();
        nodes.push(node);
        rest = after;
    }
    rest.is_empty().then_some(nodes)
}

/// The bytes of a term.
pub fn write_term(nodes: &[Node]) -> Vec<u8> {
    let mut out = Vec::new();
    for node in nodes {
        node.write(&mut out);
    }
    out
}

/// Where a node stands: its nesting (the root being 1) and the number of variables bound around it.
#[derive(Debug, Clone, Copy, PartialEq, Eq)]
pub struct Standing {
    pub nesting: usize,
    pub variables: usize,
}

/// Where each node of a term stands, in the order of the nodes.
pub fn standings(nodes: &[Node]) -> Vec<Standing> {
    let mut result = Vec::with_capacity(nodes.len());
    let mut coming = vec![Standing {
        nesting: 1,
        variables: 0,
    }];
    for node in nodes {
        let here = match coming.pop() {
            Some(here) => here,
            None => break,
        };
        result.push(here);
        let below = |binders: usize| Standing {
            nesting: here.nesting + 1,
            variables: here.variables + binders,
        };
        if let Some(others) = node.subterms().checked_sub(1) {
            coming.push(below(node.binders()));
            coming.extend(std::iter::repeat(below(0)).take(others));
        }
    }
    result
}

/// The position just past the term that begins at `start`.
pub fn end_of_term(nodes: &[Node], start: usize) -> usize {
    let mut pending = 1;
    let mut at = start;
    while pending > 0 {
        pending = pending - 1 + nodes[at].subterms();
        at += 1;
    }
    at
}
