//! Causes 5 to 8 of one term in one pass over its bytes, without recursion.

use crate::causes;
use crate::editions::Edition;
use crate::limits;
use crate::plain::check::PlainTable;
use crate::plain::levels::{Levels, Passed};
use crate::table::{CELL, MANY, MANY_LIST, MANY_PAIR, ONCE, ONCE_LIST, ONCE_PAIR, UNIT_ENTRY};
use crate::tags;

/// What a term that is exactly one term showed: its nodes, and the lowest cause from 6 on.
pub struct Scanned {
    pub nodes: usize,
    pub lowest: u32,
}

/// Refused 5 when the bytes are not exactly one term.
pub fn scan_term(
    edition: Edition,
    bytes: &[u8],
    table: PlainTable,
    bays: usize,
) -> Result<Scanned, u32> {
    let forms = edition.forms();
    let mut levels = Levels::<{ limits::MAX_NESTING }>::new();
    levels.begin();
    let mut scanned = Scanned {
        nodes: 0,
        lowest: u32::MAX,
    };
    let mut at = 0;
    let mut pending = 1usize;
    while pending > 0 {
        let tag = *bytes.get(at).ok_or(causes::NO_TERM)?;
        let form = forms.get(usize::from(tag)).ok_or(causes::NO_TERM)?;
        let after = bytes
            .get(at + 1..at + 1 + form.after)
            .ok_or(causes::NO_TERM)?;
        scanned.nodes += 1;
        pending = pending - 1 + form.subterms;
        at += 1 + form.after;
        if scanned.lowest > causes::TERM_SIZE {
            let cause = cause(levels.variables(), tag, after, table, bays);
            scanned.lowest = scanned.lowest.min(cause);
            if levels.pass(form) == Passed::TooDeep {
                scanned.lowest = causes::TERM_SIZE;
            }
        }
    }
    if at == bytes.len() {
        Ok(scanned)
    } else {
        Err(causes::NO_TERM)
    }
}

/// The cause among 7 and 8 that a node shows by itself.
fn cause(variables: usize, tag: u8, after: &[u8], table: PlainTable, bays: usize) -> u32 {
    let operand = after.first().copied().unwrap_or(0);
    match tag {
        tags::VARIABLE if usize::from(operand) >= variables => causes::SCOPE,
        tags::NAME if usize::from(operand) >= bays => causes::SCOPE,
        _ if !has_type(tag) => u32::MAX,
        _ if usize::from(operand) >= table.entries() => causes::SCOPE,
        _ if !fits(table, tag, operand) => causes::ANNOTATION,
        _ => u32::MAX,
    }
}

/// Whether a node of that tag carries a type number.
fn has_type(tag: u8) -> bool {
    matches!(
        tag,
        tags::LAMBDA | tags::CELL..=tags::HANDLE | tags::PAIR | tags::LIST
    )
}

pub fn is_function(kind: u8) -> bool {
    kind == ONCE || kind == MANY
}

/// Whether the type that a node carries has the form it must have.
fn fits(table: PlainTable, tag: u8, number: u8) -> bool {
    let (kind, p, q) = table.entry(number);
    match tag {
        tags::PAIR => kind == ONCE_PAIR || kind == MANY_PAIR,
        tags::LIST => kind == ONCE_LIST || kind == MANY_LIST,
        _ => is_function(kind) && function_fits(table, tag, p, q),
    }
}

/// Whether a lambda's or constant's function type, from p to q, has the form it must have.
fn function_fits(table: PlainTable, tag: u8, p: u8, q: u8) -> bool {
    let many = |t: u8| !table.is_once(t);
    match tag {
        tags::LAMBDA => true,
        tags::CELL => table.entry(q) == (CELL, p, 0),
        tags::EXCH => {
            let (cell, contents, _) = table.entry(p);
            let (function, new, old) = table.entry(q);
            cell == CELL && is_function(function) && new == contents && old == contents
        }
        tags::THREAD => {
            let (function, future, value) = table.entry(p);
            is_function(function) && future == q && value == q && many(q)
        }
        _ => {
            let (function, future, rest) = table.entry(p);
            let (inner, handle, end) = table.entry(rest);
            let handle_fits = table.entry(handle) == (ONCE, future, UNIT_ENTRY);
            let functions = is_function(function) && is_function(inner);
            functions && handle_fits && end == q && many(future)
        }
    }
}
