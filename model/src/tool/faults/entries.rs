//! Cause 4: a type entry breaks its rule.

use crate::causes;
use crate::editions;
use crate::limits;
use crate::table::{Entry, CELL, FIRST_ENTRIES, MANY_LIST, MANY_PAIR, NUM, ONCE_LIST, UNIT};
use crate::tool::faults::{Fault, Parts, Place};

/// Cause 4.
pub fn entries(recipe: &Parts) -> Result<(), Fault> {
    for (number, entry) in recipe.entries.iter().enumerate() {
        if let Some(why) = broken(recipe, number, *entry) {
            let [kind, p, q] = entry.bytes();
            return Err(Fault {
                number: causes::TYPE_ENTRY,
                place: Place::Entry(number),
                offset: recipe.table_offset() + limits::ENTRY_LENGTH * number,
                found: format!("the entry is {kind:02X} {p:02X} {q:02X}: {why}"),
            });
        }
    }
    Ok(())
}

/// Which rule the entry breaks, if it breaks one.
fn broken(recipe: &Parts, number: usize, entry: Entry) -> Option<String> {
    let first = FIRST_ENTRIES.get(number);
    if first.map_or(false, |first| *first != entry) {
        let due = [
            "unit (00 00 00)",
            "num (01 00 00)",
            "cell of num (02 01 00)",
        ];
        return Some(format!("entry {number} must be {}", due[number]));
    }
    let lower = &recipe.entries[..number];
    if !recipe.edition.has_kind(entry.kind) {
        let (kind, edition) = (entry.kind, recipe.edition.number);
        let known = editions::ALL.iter().any(|other| other.has_kind(kind));
        let more = if known {
            format!(" in edition {edition}")
        } else {
            String::new()
        };
        return Some(format!("there is no kind {kind}{more}"));
    }
    if !entry.keeps_its_rule(lower) {
        return Some(broken_alone(lower, entry));
    }
    let equal = lower.iter().position(|e| *e == entry)?;
    Some(format!("it is equal to entry {equal}"))
}

fn broken_alone(lower: &[Entry], entry: Entry) -> String {
    let named = |x: u8| lower.get(usize::from(x));
    let high =
        |name: &str, x: u8| format!("{name} is {x}, not smaller than the entry's own number");
    let is_list = matches!(entry.kind, ONCE_LIST | MANY_LIST);
    match entry.kind {
        UNIT | NUM => "p and q of unit and num must be 0".to_owned(),
        CELL if entry.q != 0 => "q of a cell must be 0".to_owned(),
        ONCE_LIST | MANY_LIST if entry.q != 0 => "q of a list must be 0".to_owned(),
        _ if named(entry.p).is_none() => high("p", entry.p),
        _ if !is_list && named(entry.q).is_none() => high("q", entry.q),
        kind => {
            let what = if kind == MANY_PAIR { "pair" } else { "list" };
            format!("the contents of a many {what} must be many")
        }
    }
}
