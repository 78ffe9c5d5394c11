//! Type tables with faults, and types that differ from another in one place.

use crate::draw::Draw;
use crate::format::Recipe;
use crate::limits;
use crate::table::{entry, Entry, CELL, MANY, MANY_LIST, MANY_PAIR, ONCE, ONCE_LIST, ONCE_PAIR};

/// An entry changed, added or taken away.
pub fn change_entry(recipe: &mut Recipe, draw: &mut Draw) {
    let count = recipe.entries.len();
    let at = draw.below(count);
    let other = recipe.entries[draw.below(count)];
    let target = &mut recipe.entries[at];
    match draw.below(8) {
        0 => target.kind = draw.pick(&[0, 1, 2, 3, 4, 5, 6, 7, 8, 9, 255]),
        1 => target.p = draw.byte(),
        2 => target.q = draw.byte(),
        3 if draw.one_in(2) => target.kind = target.kind.wrapping_add(1),
        3 => *target = other_multiplicity(*target),
        4 => *target = other,
        5 => target.p = at as u8,
        6 => recipe.entries.push(any_entry(draw)),
        _ => {
            recipe.entries.remove(at);
        }
    }
}

fn any_entry(draw: &mut Draw) -> Entry {
    let q = draw.pick(&[0, 0, 1, 3, 5]);
    entry(draw.below(10) as u8, draw.byte() % 8, q)
}

/// Once for many, and many for once.
fn other_multiplicity(e: Entry) -> Entry {
    let kind = match e.kind {
        ONCE => MANY,
        MANY => ONCE,
        ONCE_PAIR => MANY_PAIR,
        MANY_PAIR => ONCE_PAIR,
        ONCE_LIST => MANY_LIST,
        MANY_LIST => ONCE_LIST,
        other => other,
    };
    Entry { kind, ..e }
}

/// A many pair or list of once contents, in place of a once one or as an entry more that nothing uses.
pub fn many_of_once(recipe: &mut Recipe, draw: &mut Draw) {
    let is_once = |x: u8| {
        recipe
            .entries
            .get(usize::from(x))
            .map_or(false, |e| e.is_once())
    };
    let places: Vec<usize> = (0..recipe.entries.len())
        .filter(|place| {
            let e = recipe.entries[*place];
            matches!(e.kind, ONCE_PAIR | ONCE_LIST) && (is_once(e.p) || is_once(e.q))
        })
        .collect();
    if !places.is_empty() && draw.one_in(2) {
        let place = draw.pick(&places);
        recipe.entries[place] = other_multiplicity(recipe.entries[place]);
        return;
    }
    let once: Vec<u8> = (0..=u8::MAX)
        .take(recipe.entries.len())
        .filter(|x| is_once(*x))
        .collect();
    if once.is_empty() || recipe.entries.len() == limits::MAX_ENTRIES {
        return;
    }
    let contents = draw.pick(&once);
    recipe.entries.push(match draw.below(3) {
        0 => entry(MANY_PAIR, contents, 1),
        1 => entry(MANY_PAIR, 0, contents),
        _ => entry(MANY_LIST, contents, 0),
    });
}

/// The number of a type that differs from that one in one place, so many levels down.
pub fn near_type(recipe: &mut Recipe, draw: &mut Draw, number: u8, levels: usize) -> u8 {
    let mut near = match recipe.entries.get(usize::from(number)).copied() {
        Some(near) => near,
        None => return number,
    };
    let other = draw.below(recipe.entries.len()) as u8;
    if near.kind < CELL {
        return other;
    }
    let has_q = !matches!(near.kind, CELL | ONCE_LIST | MANY_LIST);
    let first = draw.one_in(2) || !has_q;
    match (levels > 0, first) {
        (true, true) => near.p = near_type(recipe, draw, near.p, levels - 1),
        (true, false) => near.q = near_type(recipe, draw, near.q, levels - 1),
        (false, _) => match draw.below(5) {
            0 => near = entry(CELL, near.p, 0),
            1 => near.p = other,
            2 if has_q => near.q = other,
            3 => near = other_kind(recipe, draw, near),
            _ => near = other_multiplicity(near),
        },
    }
    number_of(recipe, with_many_contents(recipe, near))
}

/// Another kind of type over the same ones, as the edition has them.
fn other_kind(recipe: &Recipe, draw: &mut Draw, e: Entry) -> Entry {
    let functions = [ONCE, MANY];
    let all = [ONCE, MANY, ONCE_PAIR, MANY_PAIR, ONCE_LIST, MANY_LIST];
    let kind = match recipe.edition {
        1 => draw.pick(&functions),
        _ => draw.pick(&all),
    };
    match kind {
        ONCE_LIST | MANY_LIST => entry(kind, e.p, 0),
        _ => entry(kind, e.p, e.q),
    }
}

/// The entry, once where its contents ask for it.
fn with_many_contents(recipe: &Recipe, e: Entry) -> Entry {
    let is_once = |x: u8| {
        let named = recipe.entries.get(usize::from(x));
        named.map_or(false, |e| e.is_once())
    };
    match e.kind {
        MANY_PAIR if is_once(e.p) || is_once(e.q) => other_multiplicity(e),
        MANY_LIST if is_once(e.p) => other_multiplicity(e),
        _ => e,
    }
}

/// The number of that entry, added if it is new and finds room.
fn number_of(recipe: &mut Recipe, wanted: Entry) -> u8 {
    let found = recipe.entries.iter().position(|e| *e == wanted);
    let number = found.unwrap_or_else(|| {
        recipe.entries.push(wanted);
        recipe.entries.len() - 1
    });
    u8::try_from(number).unwrap_or(0)
}
