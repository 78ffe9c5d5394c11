//! The shape of a term, whole or cut: above each node its parent and its binders. Made by a loop,
//! for the bytes may be unchecked.

use crate::nodes::Node;

/// A variable: the node that binds it, and how many of that node's variables come before it.
#[derive(Debug, Clone, Copy, PartialEq, Eq)]
pub struct Binder {
    pub node: usize,
    pub place: usize,
}

impl Binder {
    pub fn of_lambda(node: usize) -> Binder {
        Binder { node, place: 0 }
    }
}

/// The way from a node to one of its subterms.
#[derive(Debug, Clone, Copy, PartialEq, Eq)]
pub enum Way {
    Function,
    Argument,
    First,
    Second,
    Subject,
    Body,
}

impl Way {
    fn name(self) -> &'static str {
        match self {
            Way::Function => "function",
            Way::Argument => "argument",
            Way::First => "first",
            Way::Second => "second",
            Way::Subject => "subject",
            Way::Body => "body",
        }
    }
}

/// The ways from a node, in the order of its subterms.
fn ways(node: Node) -> &'static [Way] {
    match node {
        Node::Lambda(_) => &[Way::Body],
        Node::Application => &[Way::Function, Way::Argument],
        Node::Pair(_) | Node::Front(_) => &[Way::First, Way::Second],
        Node::Case(_) => &[Way::Subject, Way::Body],
        _ => &[],
    }
}

/// What stands above a node.
#[derive(Debug, Clone, Copy)]
pub struct Above {
    pub parent: Option<(usize, Way)>,
    /// The innermost lambda or case that the node stands in the body of.
    pub binder: Option<usize>,
    /// How many variables are bound around the node.
    pub variables: usize,
    /// The root being 1.
    pub nesting: usize,
}

const ROOT: Above = Above {
    parent: None,
    binder: None,
    variables: 0,
    nesting: 1,
};

/// What stands above each node, and above the next one if the term is cut.
pub struct Outline {
    pub above: Vec<Above>,
    pub is_cut: bool,
}

impl Outline {
    pub fn of(nodes: &[Node]) -> Outline {
        let mut above = Vec::with_capacity(nodes.len() + 1);
        let mut coming = vec![ROOT];
        for (at, node) in nodes.iter().enumerate() {
            let here = match coming.pop() {
                Some(here) => here,
                None => break,
            };
            above.push(here);
            let below = |way| Above {
                parent: Some((at, way)),
                nesting: here.nesting + 1,
                ..here
            };
            for way in ways(*node).iter().rev() {
                coming.push(match way {
                    Way::Body => Above {
                        binder: Some(at),
                        variables: here.variables + node.binders(),
                        ..below(Way::Body)
                    },
                    _ => below(*way),
                });
            }
        }
        let next = coming.pop();
        let is_cut = next.is_some();
        above.extend(next);
        Outline { above, is_cut }
    }

    /// What binds the variable with that index at that place.
    pub fn binder(&self, at: usize, index: u8) -> Option<Binder> {
        let wanted = self.above[at]
            .variables
            .checked_sub(usize::from(index) + 1)?;
        let mut node = self.above[at].binder?;
        while self.above[node].variables > wanted {
            node = self.above[node].binder?;
        }
        let place = wanted - self.above[node].variables;
        Some(Binder { node, place })
    }

    /// "root", or the way there: "function.argument.body".
    pub fn path(&self, at: usize) -> String {
        let mut words = Vec::new();
        let mut here = at;
        while let Some((parent, way)) = self.above.get(here).and_then(|above| above.parent) {
            words.push(way.name());
            here = parent;
        }
        words.reverse();
        written(&words)
    }
}

/// From how many equal steps on they are written as one.
const REPEATED: usize = 5;

/// The words cut where two neighbours differ.
fn runs<'a, 'b>(words: &'a [&'b str]) -> Vec<&'a [&'b str]> {
    let mut rest = words;
    let mut runs = Vec::new();
    while let Some(first) = rest.first() {
        let equal = rest.iter().take_while(|word| *word == first).count();
        runs.push(&rest[..equal]);
        rest = &rest[equal..];
    }
    runs
}

/// Equal steps, one by one or counted.
fn run_text(run: &[&str]) -> String {
    match run.len() {
        count if count >= REPEATED => format!("{}×{count}", run[0]),
        _ => run.join("."),
    }
}

/// "root", "function.body", or with equal steps counted "argument×98.function.body".
fn written(words: &[&str]) -> String {
    if words.is_empty() {
        return "root".to_owned();
    }
    let texts: Vec<String> = runs(words).into_iter().map(run_text).collect();
    let (first, last) = (
        texts.len().min(MOST / 2),
        texts.len().saturating_sub(MOST / 2),
    );
    if texts.len() <= MOST {
        return texts.join(".");
    }
    format!(
        "{}. … .{}",
        texts[..first].join("."),
        texts[last..].join(".")
    )
}

/// The most steps of a path that are written, equal ones counted as one.
const MOST: usize = 30;
