//! The open levels of a walk over a term's bytes, in place of recursion.

use crate::nodes::NodeForm;

/// For each open level the subterms still to come, the variables around them, and how many the last
/// one has more; at most `MOST` levels. Only the levels down to `depth` hold something.
pub struct Levels<const MOST: usize> {
    pending: [u8; MOST],
    variables: [u16; MOST],
    binders: [u8; MOST],
    depth: usize,
}

/// What a node leaves.
#[derive(Clone, Copy, PartialEq, Eq)]
pub enum Passed {
    More,
    Ended,
    TooDeep,
}

impl<const MOST: usize> Levels<MOST> {
    pub fn new() -> Levels<MOST> {
        Levels {
            pending: [0; MOST],
            variables: [0; MOST],
            binders: [0; MOST],
            depth: 0,
        }
    }

    /// At the root of a term.
    pub fn begin(&mut self) {
        self.pending[0] = 1;
        self.variables[0] = 0;
        self.binders[0] = 0;
        self.depth = 0;
    }

    /// The variables bound around the next node.
    pub fn variables(&self) -> usize {
        let here = self.depth;
        let more = match self.pending[here] {
            1 => self.binders[here],
            _ => 0,
        };
        usize::from(self.variables[here]) + usize::from(more)
    }

    /// Past a node of that form.
    pub fn pass(&mut self, form: &NodeForm) -> Passed {
        let variables = self.variables() as u16;
        self.pending[self.depth] -= 1;
        if form.subterms > 0 {
            let below = self.depth + 1;
            if below == MOST {
                return Passed::TooDeep;
            }
            self.pending[below] = form.subterms as u8;
            self.variables[below] = variables;
            self.binders[below] = form.binders as u8;
            self.depth = below;
        }
        while self.depth > 0 && self.pending[self.depth] == 0 {
            self.depth -= 1;
        }
        if self.pending[self.depth] > 0 {
            Passed::More
        } else {
            Passed::Ended
        }
    }
}
