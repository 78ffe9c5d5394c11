//! Where a node stands in a text, and what the text calls the variables that it binds.

use crate::tool::outline::{Binder, Outline};
use crate::tool::text::spelling::variable_name;
use crate::tool::text::tokens::Position;

#[derive(Debug, Clone, PartialEq, Eq)]
pub struct Spot {
    pub position: Position,
    /// Of a lambda one, of a case two.
    pub variables: Vec<String>,
}

impl Spot {
    pub fn of(position: Position) -> Spot {
        Spot::of_binder(position, &[])
    }

    pub fn of_binder(position: Position, variables: &[&str]) -> Spot {
        let variables = variables.iter().map(|&x| x.to_owned()).collect();
        Spot {
            position,
            variables,
        }
    }
}

/// The text's name for a variable; without a text, the tool's.
pub fn variable(spots: &[Spot], outline: &Outline, binder: Binder) -> String {
    let spot = spots.get(binder.node);
    let own = spot.and_then(|spot| spot.variables.get(binder.place).cloned());
    own.unwrap_or_else(|| variable_name(outline.above[binder.node].variables + binder.place))
}

/// Line and column of the node at that place; without a text, the path to it.
pub fn place(spots: &[Spot], outline: &Outline, at: usize) -> String {
    match spots.get(at) {
        Some(spot) => format!("{}:{}", spot.position.line, spot.position.column),
        None => outline.path(at),
    }
}
