//! Loading: the check, then the starting image, each starting num and each term copied byte for byte.

use crate::causes;
use crate::kinds;
use crate::limits;
use crate::nodes::FORMS;
use crate::plain::check::{check, Answer, PlainParts};
use crate::tags;

/// The verdict, and the length of the image written (0 on a refusal).
pub fn load(file: &[u8], out: &mut [u8]) -> (Answer, usize) {
    load_unless(|_, _| 0, file, out)
}

/// The same with separate bays.
pub fn load_separate(file: &[u8], out: &mut [u8]) -> (Answer, usize) {
    load_unless(not_separate, file, out)
}

/// The same; a recipe that the checker accepts may still be refused, for its terms of so many bays.
fn load_unless(
    refusal: fn(PlainParts, usize) -> u32,
    file: &[u8],
    out: &mut [u8],
) -> (Answer, usize) {
    if out.len() < limits::MAX_IMAGE {
        return (Answer::refused(causes::BUFFER), 0);
    }
    let answer = check(file);
    if answer.refusal != 0 {
        return (answer, 0);
    }
    let bays = answer.bays as usize;
    let parts = PlainParts::of_accepted(file);
    let refusal = refusal(parts, bays);
    if refusal != 0 {
        return (Answer::refused(refusal), 0);
    }
    (answer, write_start(parts, bays, out))
}

/// Cause 20 or 21, or 0: a bay has two names, the node of its setting and those of its term.
fn not_separate(parts: PlainParts, bays: usize) -> u32 {
    let mut refusal = 0;
    for bay in 0..bays {
        match own_nodes(parts.term(bay), bay) {
            None => return causes::OTHER_SETTING,
            Some(nodes) if 1 + nodes > limits::MAX_NODES / bays => refusal = causes::SHARE,
            _ => {}
        }
    }
    refusal
}

/// The nodes of a term that names only that bay's setting.
fn own_nodes(term: &[u8], bay: usize) -> Option<usize> {
    let mut at = 0;
    let mut nodes = 0;
    while at < term.len() {
        if term[at] == tags::NAME && usize::from(term[at + 1]) != bay {
            return None;
        }
        at += 1 + FORMS[usize::from(term[at])].after;
        nodes += 1;
    }
    Some(nodes)
}

/// Writes the starting image; its length.
fn write_start(parts: PlainParts, bays: usize, out: &mut [u8]) -> usize {
    let starting = parts.starting();
    let mut end = limits::FIRST_HEAD + limits::HEAD_LENGTH * 2 * bays;
    out[..2].copy_from_slice(&(2 * bays as u16).to_le_bytes());
    for name in 0..2 * bays {
        let bay = name % bays;
        let num;
        let (kind, expression) = if name < bays {
            num = setting(starting, bay);
            (kinds::CELL, &num[..])
        } else {
            (kinds::THREAD, parts.term(bay))
        };
        let head = limits::FIRST_HEAD + limits::HEAD_LENGTH * name;
        out[head..head + 2].copy_from_slice(&[kind, bay as u8]);
        out[head + 2..head + 4].copy_from_slice(&(end as u16).to_le_bytes());
        out[head + 4..head + 6].copy_from_slice(&(expression.len() as u16).to_le_bytes());
        out[end..end + expression.len()].copy_from_slice(expression);
        end += expression.len();
    }
    end
}

/// The num that a bay's setting starts with, as an expression.
fn setting(starting: Option<&[u8]>, bay: usize) -> [u8; 3] {
    match starting {
        Some(nums) => {
            let at = limits::STARTING_NUM_LENGTH * bay;
            [tags::NUM, nums[at], nums[at + 1]]
        }
        None => [tags::NUM, 0, 0],
    }
}
