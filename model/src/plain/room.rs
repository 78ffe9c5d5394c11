//! Whether there is room for a rule's outcome: over the whole image, or in each bay's share.

use crate::limits;
use crate::plain::image::{measure, ExpressionLevels, PlainImage};
use crate::plain::place::Place;
use crate::plain::step::nodes_after;
use crate::plain::write::Change;

/// A rule about to be applied by that thread.
#[derive(Clone, Copy)]
pub struct Applied<'a> {
    pub image: PlainImage<'a>,
    pub thread: usize,
    pub place: Place,
    pub change: Change,
}

/// What a profile counts while an image is read, and then asks of the outcome.
pub trait Room {
    /// A name more of that owner, with so many nodes.
    fn note(&mut self, owner: u8, nodes: usize);
    fn suffices(&mut self, levels: &mut ExpressionLevels, applied: Applied) -> bool;
}

/// The limits of the image, which are counted without owners.
pub struct Whole;

impl Room for Whole {
    fn note(&mut self, _: u8, _: usize) {}

    fn suffices(&mut self, levels: &mut ExpressionLevels, applied: Applied) -> bool {
        let names = applied.image.names + applied.change.new_names();
        let nodes = nodes_after(levels, applied, applied.image.nodes);
        names <= limits::MAX_NAMES && nodes <= limits::MAX_NODES
    }
}

/// The names and nodes of each bay, and one more than the highest owner.
pub struct Shares {
    names: [usize; limits::MAX_BAYS],
    nodes: [usize; limits::MAX_BAYS],
    bays: usize,
}

impl Shares {
    pub fn new() -> Shares {
        Shares {
            names: [0; limits::MAX_BAYS],
            nodes: [0; limits::MAX_BAYS],
            bays: 0,
        }
    }
}

impl Room for Shares {
    fn note(&mut self, owner: u8, nodes: usize) {
        let bay = usize::from(owner);
        self.names[bay] += 1;
        self.nodes[bay] += nodes;
        self.bays = self.bays.max(bay + 1);
    }

    /// The rule's nodes go to the stepping thread's bay, but for those that change hands.
    fn suffices(&mut self, levels: &mut ExpressionLevels, applied: Applied) -> bool {
        let own = usize::from(applied.image.owner(applied.thread));
        self.names[own] += applied.change.new_names();
        self.nodes[own] = nodes_after(levels, applied, self.nodes[own]);
        if let Some((name, gets, gives)) = handed_over(applied) {
            let other = usize::from(applied.image.owner(name));
            self.nodes[other] = self.nodes[other] + gets - gives;
            self.nodes[own] = self.nodes[own] + gives - gets;
        }
        let names = limits::MAX_NAMES / self.bays;
        let nodes = limits::MAX_NODES / self.bays;
        (0..self.bays).all(|bay| self.names[bay] <= names && self.nodes[bay] <= nodes)
    }
}

/// The future bound or the cell exchanged, with the nodes that it gets of the stepping thread and gives it.
fn handed_over(applied: Applied) -> Option<(usize, usize, usize)> {
    let value = applied.place.second_nodes;
    match applied.change {
        Change::HandleBind { future, .. } => Some((usize::from(future), value, 0)),
        Change::CellExch { cell } => {
            let cell = usize::from(cell);
            let (old, _) = measure(applied.image.expression(cell), 0);
            Some((cell, value, old))
        }
        _ => None,
    }
}
