//! A step on bytes: which rule, whether there is room, and only then the new image.

use crate::causes;
use crate::kinds;
use crate::limits;
use crate::nodes::FORMS;
use crate::plain::image::{measure, read, ExpressionLevels, PlainImage};
use crate::plain::levels::Passed;
use crate::plain::place::{find, is_value, Place};
use crate::plain::room::{Applied, Room, Shares, Whole};
use crate::plain::write::{write, Change};
use crate::rules;
use crate::tags;

/// The answer of a step.
#[derive(Debug, Clone, Copy, PartialEq, Eq)]
pub enum Stepped {
    Rule(u8, usize),
    Done,
    Waiting(u8),
    Refused(u32),
}

/// One step of that thread.
pub fn step(bytes: &[u8], thread: u64, out: &mut [u8]) -> Stepped {
    step_within(Whole, bytes, thread, out)
}

/// One step of that thread, within the bays' shares.
pub fn step_separate(bytes: &[u8], thread: u64, out: &mut [u8]) -> Stepped {
    step_within(Shares::new(), bytes, thread, out)
}

fn step_within<R: Room>(mut room: R, bytes: &[u8], thread: u64, out: &mut [u8]) -> Stepped {
    if out.len() < limits::MAX_IMAGE {
        return Stepped::Refused(causes::BUFFER);
    }
    let mut levels = ExpressionLevels::new();
    let image = match read(&mut levels, &mut room, bytes) {
        Some(image) => image,
        None => return Stepped::Refused(causes::IMAGE),
    };
    if thread >= image.names as u64 || image.kind(thread as usize) != kinds::THREAD {
        return Stepped::Refused(causes::NO_THREAD);
    }
    let thread = thread as usize;
    let expression = image.expression(thread);
    let place = match find(expression) {
        Some(place) => place,
        None => return Stepped::Done,
    };
    let change = match decide(image, expression, place) {
        Ok(change) => change,
        Err(answer) => return answer,
    };
    let applied = Applied {
        image,
        thread,
        place,
        change,
    };
    if !room.suffices(&mut levels, applied) {
        return Stepped::Refused(causes::ROOM);
    }
    let length = write(&mut levels, image, thread, place, change, out);
    Stepped::Rule(change.rule(), length)
}

/// The change that a rule makes, or the answer that comes instead.
fn decide(image: PlainImage, expression: &[u8], place: Place) -> Result<Change, Stepped> {
    let shape = expression[place.start];
    if shape != tags::APPLICATION {
        return decide_case(image, expression, place, shape);
    }
    let function = place.first();
    match expression[function] {
        tags::LAMBDA => Ok(Change::Beta),
        tags::CELL => Ok(Change::CellNew),
        tags::THREAD => Ok(Change::ThreadNew),
        tags::HANDLE => Ok(Change::HandleNew),
        tags::NAME => match decide_name(image, expression, function)? {
            Some(change) => Ok(change),
            None => decide_handle(image, expression[function + 1]),
        },
        tags::APPLICATION if expression[function + 3] == tags::NAME => {
            let name = expression[function + 4];
            match decide_name(image, expression, function + 3)? {
                Some(change) => Ok(change),
                None if image.kind(usize::from(name)) == kinds::CELL => {
                    Ok(Change::CellExch { cell: name })
                }
                None => Err(Stepped::Refused(causes::WRONG_KIND)),
            }
        }
        _ => Err(Stepped::Refused(causes::WRONG_KIND)),
    }
}

/// A case of that tag, of a value.
fn decide_case(
    image: PlainImage,
    expression: &[u8],
    place: Place,
    tag: u8,
) -> Result<Change, Stepped> {
    let wrong = Stepped::Refused(causes::WRONG_KIND);
    match (tag, expression[place.first()]) {
        (tags::CASE_PAIR, tags::PAIR) => Ok(Change::Case(rules::CASE_PAIR)),
        (tags::CASE_LIST, tags::LIST) => Ok(Change::Case(rules::CASE_LIST)),
        (_, tags::NAME) => decide_name(image, expression, place.first())?.ok_or(wrong),
        _ => Err(wrong),
    }
}

/// Rule 3 or waiting, when the name that is needed is a thread or a future.
fn decide_name(image: PlainImage, expression: &[u8], at: usize) -> Result<Option<Change>, Stepped> {
    let name = expression[at + 1];
    match image.kind(usize::from(name)) {
        kinds::THREAD if is_value(image.expression(usize::from(name))) => {
            Ok(Some(Change::FutureDeref { at, name }))
        }
        kinds::THREAD | kinds::FUTURE => Err(Stepped::Waiting(name)),
        _ => Ok(None),
    }
}

fn decide_handle(image: PlainImage, name: u8) -> Result<Change, Stepped> {
    match image.kind(usize::from(name)) {
        kinds::OPEN_HANDLE => Ok(Change::HandleBind {
            handle: name,
            future: image.companion(usize::from(name)),
        }),
        kinds::USED_HANDLE => Err(Stepped::Refused(causes::USED_HANDLE)),
        _ => Err(Stepped::Refused(causes::WRONG_KIND)),
    }
}

/// So many nodes, those of the stepping thread among them, after the rule.
pub fn nodes_after(levels: &mut ExpressionLevels, applied: Applied, nodes: usize) -> usize {
    let Applied { image, place, .. } = applied;
    let expression = image.expression(applied.thread);
    match applied.change {
        Change::Beta => {
            let places = uses(levels, &expression[place.first() + 2..], 0);
            let value = place.second_nodes;
            nodes - 2 - value + places * value - places
        }
        Change::Case(_) => {
            let (first_nodes, second) = measure(expression, place.first() + 2);
            let (second_nodes, _) = measure(expression, second);
            let body = &expression[place.second..];
            let first_places = uses(levels, body, 1);
            let second_places = uses(levels, body, 0);
            let places = first_places + second_places;
            let put_in = first_places * first_nodes + second_places * second_nodes;
            nodes - 2 - first_nodes - second_nodes + put_in - places
        }
        Change::ThreadNew => nodes + 1,
        Change::FutureDeref { name, .. } => {
            let (value, _) = measure(image.expression(usize::from(name)), 0);
            nodes - 1 + value
        }
        Change::HandleNew => nodes + 2,
        Change::HandleBind { .. } | Change::CellNew => nodes - 1,
        Change::CellExch { .. } => nodes - 4,
    }
}

/// How often the variable with that index stands in the body that begins here.
fn uses(levels: &mut ExpressionLevels, body: &[u8], index: usize) -> usize {
    levels.begin();
    let mut at = 0;
    let mut places = 0;
    loop {
        let tag = body[at];
        let form = &FORMS[usize::from(tag)];
        let own = levels.variables() + index;
        places += usize::from(tag == tags::VARIABLE && usize::from(body[at + 1]) == own);
        at += 1 + form.after;
        if levels.pass(form) != Passed::More {
            return places;
        }
    }
}
