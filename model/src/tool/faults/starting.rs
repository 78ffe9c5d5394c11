//! Cause 19: "a starting part whose length is not twice the number of bays".

use crate::causes;
use crate::limits;
use crate::tool::faults::{Fault, Parts, Place};

/// Cause 19.
pub fn twice_the_bays(recipe: &Parts) -> Result<(), Fault> {
    let length = match recipe.other_starting_part() {
        Some(part) => part.len(),
        None => return Ok(()),
    };
    let bays = recipe.terms.len();
    let due = limits::STARTING_NUM_LENGTH * bays;
    Err(Fault {
        number: causes::STARTING,
        place: Place::Starting,
        offset: recipe.starting_offset(),
        found: format!("the part's length is {length}; b is {bays}, so it should be {due}"),
    })
}
