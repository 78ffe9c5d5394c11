//! The new image after a change, written in one pass; there is room for it.

use crate::kinds;
use crate::limits;
use crate::nodes::FORMS;
use crate::plain::image::{measure, ExpressionLevels, PlainImage};
use crate::plain::levels::Passed;
use crate::plain::place::Place;
use crate::rules;
use crate::tags;

/// A rule with what it needs beyond the place.
#[derive(Clone, Copy)]
pub enum Change {
    Beta,
    ThreadNew,
    /// The needed name and where it stands.
    FutureDeref {
        at: usize,
        name: u8,
    },
    HandleNew,
    HandleBind {
        handle: u8,
        future: u8,
    },
    CellNew,
    CellExch {
        cell: u8,
    },
    /// A pair or a front taken apart, by that rule.
    Case(u8),
}

impl Change {
    pub fn rule(self) -> u8 {
        match self {
            Change::Beta => rules::BETA,
            Change::ThreadNew => rules::THREAD_NEW,
            Change::FutureDeref { .. } => rules::FUTURE_DEREF,
            Change::HandleNew => rules::HANDLE_NEW,
            Change::HandleBind { .. } => rules::HANDLE_BIND,
            Change::CellNew => rules::CELL_NEW,
            Change::CellExch { .. } => rules::CELL_EXCH,
            Change::Case(rule) => rule,
        }
    }

    /// How many names the rule adds.
    pub fn new_names(self) -> usize {
        match self {
            Change::ThreadNew | Change::CellNew => 1,
            Change::HandleNew => 2,
            _ => 0,
        }
    }
}

/// The out buffer and where the next expression goes.
struct Writer<'a> {
    levels: &'a mut ExpressionLevels,
    out: &'a mut [u8],
    end: usize,
}

impl Writer<'_> {
    fn put(&mut self, bytes: &[u8]) {
        self.out[self.end..self.end + bytes.len()].copy_from_slice(bytes);
        self.end += bytes.len();
    }

    /// The head of a name whose expression has just been written from `start` on.
    fn head(&mut self, name: usize, kind: u8, companion: u8, start: usize) {
        let at = limits::FIRST_HEAD + limits::HEAD_LENGTH * name;
        let length = (self.end - start) as u16;
        self.out[at..at + 2].copy_from_slice(&[kind, companion]);
        self.out[at + 2..at + 4].copy_from_slice(&(start as u16).to_le_bytes());
        self.out[at + 4..at + 6].copy_from_slice(&length.to_le_bytes());
    }

    /// The body with the values at the places of the variables bound last: the first value is that
    /// of index 0.
    fn substituted(&mut self, body: &[u8], values: &[&[u8]]) {
        self.levels.begin();
        let mut at = 0;
        loop {
            let tag = body[at];
            let form = &FORMS[usize::from(tag)];
            let next = at + 1 + form.after;
            let outside = match tag {
                tags::VARIABLE => usize::from(body[at + 1]).checked_sub(self.levels.variables()),
                _ => None,
            };
            match outside {
                Some(index) => self.put(values[index]),
                None => self.put(&body[at..next]),
            }
            at = next;
            if self.levels.pass(form) != Passed::More {
                return;
            }
        }
    }
}

/// Writes the image after the change; its length.
pub fn write(
    levels: &mut ExpressionLevels,
    image: PlainImage,
    thread: usize,
    place: Place,
    change: Change,
    out: &mut [u8],
) -> usize {
    let names = image.names + change.new_names();
    let end = limits::FIRST_HEAD + limits::HEAD_LENGTH * names;
    let mut writer = Writer { levels, out, end };
    writer.out[..2].copy_from_slice(&(names as u16).to_le_bytes());
    let expression = image.expression(thread);
    let value = &expression[place.second..place.end];
    for name in 0..image.names {
        let start = writer.end;
        let (kind, companion) = if name == thread {
            write_thread(&mut writer, image, expression, place, change);
            (kinds::THREAD, image.owner(thread))
        } else {
            write_other(&mut writer, image, name, value, change)
        };
        writer.head(name, kind, companion, start);
    }
    write_new(&mut writer, image.names, image.owner(thread), value, change);
    writer.end
}

/// The expression of the thread that steps.
fn write_thread(
    writer: &mut Writer,
    image: PlainImage,
    expression: &[u8],
    place: Place,
    change: Change,
) {
    let value = &expression[place.second..place.end];
    let new = image.names as u8;
    writer.put(&expression[..place.start]);
    match change {
        Change::Beta => writer.substituted(&expression[place.first() + 2..], &[value]),
        Change::Case(_) => {
            let first = place.first() + 2;
            let (_, second) = measure(expression, first);
            let components = [
                &expression[second..place.second],
                &expression[first..second],
            ];
            writer.substituted(&expression[place.second..], &components);
        }
        Change::ThreadNew | Change::CellNew => writer.put(&[tags::NAME, new]),
        Change::FutureDeref { at, name } => {
            writer.put(&expression[place.start..at]);
            writer.put(image.expression(usize::from(name)));
            writer.put(&expression[at + 2..place.end]);
        }
        Change::HandleNew => {
            writer.put(&[tags::APPLICATION, tags::APPLICATION]);
            writer.put(value);
            writer.put(&[tags::NAME, new, tags::NAME, new + 1]);
        }
        Change::HandleBind { .. } => writer.put(&[tags::UNIT]),
        Change::CellExch { cell } => writer.put(image.expression(usize::from(cell))),
    }
    writer.put(&expression[place.end..]);
}

/// Any other name: the future bound, the handle used, the cell exchanged, or as it was; its kind and
/// companion. Whoever steps, it keeps its owner.
fn write_other(
    writer: &mut Writer,
    image: PlainImage,
    name: usize,
    value: &[u8],
    change: Change,
) -> (u8, u8) {
    match change {
        Change::HandleBind { future, .. } if usize::from(future) == name => {
            writer.put(value);
            (kinds::THREAD, image.owner(name))
        }
        Change::HandleBind { handle, .. } if usize::from(handle) == name => {
            (kinds::USED_HANDLE, image.owner(name))
        }
        Change::CellExch { cell } if usize::from(cell) == name => {
            writer.put(value);
            (kinds::CELL, image.owner(name))
        }
        _ => {
            writer.put(image.expression(name));
            (image.kind(name), image.companion(name))
        }
    }
}

/// The new names, of that bay: a thread, a cell, or a future and its handle.
fn write_new(writer: &mut Writer, first: usize, owner: u8, value: &[u8], change: Change) {
    let start = writer.end;
    let new = first as u8;
    match change {
        Change::ThreadNew => {
            writer.put(&[tags::APPLICATION]);
            writer.put(value);
            writer.put(&[tags::NAME, new]);
            writer.head(first, kinds::THREAD, owner, start);
        }
        Change::CellNew => {
            writer.put(value);
            writer.head(first, kinds::CELL, owner, start);
        }
        Change::HandleNew => {
            writer.head(first, kinds::FUTURE, owner, start);
            writer.head(first + 1, kinds::OPEN_HANDLE, new, start);
        }
        _ => {}
    }
}
