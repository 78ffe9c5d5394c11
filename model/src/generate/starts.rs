//! Starting nums, and what can go wrong with the part that holds them.

use crate::draw::Draw;
use crate::editions::{Edition, FIRST, SECOND, STARTING_PART, THIRD};
use crate::format::{write_parts, Recipe};
use crate::generate::recipes::{several_careless_bays, small, well_typed};
use crate::limits::{MAX_BAYS, MAX_FILE, STARTING_NUM_LENGTH};
use crate::nodes::Node;
use crate::tags;

/// A starting num for each bay, where the edition has them.
pub fn nums(draw: &mut Draw, edition: Edition, bays: usize) -> Vec<u16> {
    let zeros = edition.zeros(bays);
    zeros.into_iter().map(|_| num(draw)).collect()
}

/// At the edges of a byte, of an opening in tenths of a percent and of two bytes; or any.
fn num(draw: &mut Draw) -> u16 {
    match draw.below(4) {
        0 => (draw.number() >> 48) as u16,
        _ => draw.pick(&[0, 1, 250, 255, 256, 1_000, 1_001, u16::MAX]),
    }
}

/// The recipe in edition 3, with nums where it had none.
fn in_edition_3(draw: &mut Draw, make: fn(&mut Draw) -> Recipe) -> Recipe {
    let mut recipe = make(draw);
    if recipe.edition != THIRD.number {
        recipe.starts = nums(draw, THIRD, recipe.terms.len());
        recipe.edition = THIRD.number;
    }
    recipe
}

/// A file about the starting part: its length, the number of bays, the edition beside it.
pub fn file(draw: &mut Draw) -> Vec<u8> {
    let makers: [fn(&mut Draw) -> Recipe; 4] = [well_typed, small, small, several_careless_bays];
    let make = draw.pick(&makers);
    let mut recipe = in_edition_3(draw, make);
    match draw.below(10) {
        0 => return with_another_edition(draw, &recipe),
        1 => return of_edge_bays(draw, recipe),
        2..=4 => name_about_b(draw, &mut recipe),
        _ => {}
    }
    let mut parts = recipe.parts();
    if draw.below(4) > 0 {
        let rest = write_parts(recipe.edition, &parts).len() - parts[STARTING_PART].len();
        let length = another_length(draw, recipe.terms.len(), rest);
        parts[STARTING_PART].resize_with(length, || draw.byte());
    }
    if draw.one_in(12) {
        // the last bay is no term
        parts.last_mut().expect("a bay").push(tags::UNIT);
    }
    write_parts(recipe.edition, &parts)
}

/// A length of the starting part for so many bays, the other bytes of the file being `rest`: near twice
/// the bays, once and four times the bays, and up to a file too long.
fn another_length(draw: &mut Draw, bays: usize, rest: usize) -> usize {
    let due = STARTING_NUM_LENGTH * bays;
    match draw.below(12) {
        0 | 1 => due - 1,
        2 | 3 => due + 1,
        4 | 5 => due + STARTING_NUM_LENGTH,
        6 | 7 => due - STARTING_NUM_LENGTH,
        8 => draw.pick(&[bays, 2 * due, due * due, 256 + due]),
        9 => draw.pick(&[0, 1, 2, 3]),
        10 => (MAX_FILE + draw.below(2)).saturating_sub(rest),
        _ => draw.below(3 * due + 1),
    }
}

/// The parts as they are under another edition's byte, or without the starting part under this one's.
fn with_another_edition(draw: &mut Draw, recipe: &Recipe) -> Vec<u8> {
    let mut parts = recipe.parts();
    if draw.one_in(2) {
        parts.remove(STARTING_PART);
        return write_parts(recipe.edition, &parts);
    }
    let other = draw.pick(&[FIRST, SECOND]);
    write_parts(other.number, &parts)
}

/// No bay, one, sixteen or one too many.
fn of_edge_bays(draw: &mut Draw, mut recipe: Recipe) -> Vec<u8> {
    let bays = draw.pick(&[0, 1, MAX_BAYS, MAX_BAYS + 1]);
    recipe.terms.resize(bays, vec![Node::Unit]);
    recipe.starts = nums(draw, THIRD, bays.max(1));
    recipe.write()
}

/// A bay that is the setting of the last bay, or of one or two after it.
fn name_about_b(draw: &mut Draw, recipe: &mut Recipe) {
    let bays = recipe.terms.len();
    let setting = Node::Name((bays - 1 + draw.below(3)) as u8);
    let bay = draw.below(bays);
    recipe.terms[bay] = vec![setting];
}
