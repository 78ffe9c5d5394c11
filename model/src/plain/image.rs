//! Refusal 13 on bytes: one pass over the heads, one over each expression.

use crate::kinds;
use crate::limits;
use crate::nodes::FORMS;
use crate::plain::levels::{Levels, Passed};
use crate::plain::room::Room;
use crate::tags;

/// A sound image and its number of nodes.
#[derive(Clone, Copy)]
pub struct PlainImage<'a> {
    pub bytes: &'a [u8],
    pub names: usize,
    pub nodes: usize,
}

impl<'a> PlainImage<'a> {
    pub fn kind(self, name: usize) -> u8 {
        self.bytes[head(name)]
    }

    pub fn companion(self, name: usize) -> u8 {
        self.bytes[head(name) + 1]
    }

    /// The owning bay; an open handle's is its future's.
    pub fn owner(self, name: usize) -> u8 {
        match self.kind(name) {
            kinds::OPEN_HANDLE => self.companion(usize::from(self.companion(name))),
            _ => self.companion(name),
        }
    }

    pub fn offset(self, name: usize) -> usize {
        number_at(self.bytes, head(name) + 2)
    }

    pub fn expression(self, name: usize) -> &'a [u8] {
        let offset = self.offset(name);
        &self.bytes[offset..offset + number_at(self.bytes, head(name) + 4)]
    }
}

fn head(name: usize) -> usize {
    limits::FIRST_HEAD + limits::HEAD_LENGTH * name
}

fn number_at(bytes: &[u8], at: usize) -> usize {
    usize::from(bytes[at]) + 256 * usize::from(bytes[at + 1])
}

/// The image, if it keeps every rule and limit; the owner and the nodes of each name are noted.
pub fn read<'a, R: Room>(
    levels: &mut ExpressionLevels,
    room: &mut R,
    bytes: &'a [u8],
) -> Option<PlainImage<'a>> {
    if !(limits::FIRST_HEAD..=limits::MAX_IMAGE).contains(&bytes.len()) {
        return None;
    }
    let names = number_at(bytes, 0);
    if names > limits::MAX_NAMES || head(names) > bytes.len() {
        return None;
    }
    let mut image = PlainImage {
        bytes,
        names,
        nodes: 0,
    };
    check_heads(image)?;
    for name in 0..names {
        let mut nodes = 0;
        if image.kind(name) <= kinds::CELL {
            nodes = scan(levels, image.expression(name), names)?;
        }
        image.nodes += nodes;
        room.note(image.owner(name), nodes);
        if image.kind(name) == kinds::CELL && !crate::plain::place::is_value(image.expression(name))
        {
            return None;
        }
    }
    (image.nodes <= limits::MAX_NODES).then_some(image)
}

/// Kinds, companions, offsets and lengths; each future has exactly one open handle.
fn check_heads(image: PlainImage) -> Option<()> {
    let mut end = head(image.names);
    let mut handles = [0u16; limits::MAX_NAMES];
    for name in 0..image.names {
        let length = number_at(image.bytes, head(name) + 4);
        let (kind, companion) = (image.kind(name), image.companion(name));
        let sound = match kind {
            kinds::THREAD | kinds::CELL => usize::from(companion) < limits::MAX_BAYS,
            kinds::OPEN_HANDLE => length == 0 && usize::from(companion) < image.names,
            kinds::USED_HANDLE | kinds::FUTURE => {
                length == 0 && usize::from(companion) < limits::MAX_BAYS
            }
            _ => false,
        };
        if !sound || image.offset(name) != end {
            return None;
        }
        if kind == kinds::OPEN_HANDLE {
            handles[usize::from(companion)] += 1;
        }
        end += length;
    }
    let matched = |name: usize| handles[name] == u16::from(image.kind(name) == kinds::FUTURE);
    (end == image.bytes.len() && (0..image.names).all(matched)).then_some(())
}

/// The levels of a walk over an expression.
pub type ExpressionLevels = Levels<{ limits::MAX_NODES }>;

/// The nodes of bytes that are exactly one term, with its variables bound and names below m.
fn scan(levels: &mut ExpressionLevels, bytes: &[u8], names: usize) -> Option<usize> {
    levels.begin();
    let mut at = 0;
    let mut nodes = 0;
    loop {
        let tag = *bytes.get(at)?;
        let form = FORMS.get(usize::from(tag))?;
        let after = bytes.get(at + 1..at + 1 + form.after)?;
        nodes += 1;
        let sound = match tag {
            tags::VARIABLE => usize::from(after[0]) < levels.variables(),
            tags::NAME => usize::from(after[0]) < names,
            _ => true,
        };
        if !sound || nodes > limits::MAX_NODES {
            return None;
        }
        at += 1 + form.after;
        match levels.pass(form) {
            Passed::More => {}
            Passed::Ended => return (at == bytes.len()).then_some(nodes),
            Passed::TooDeep => return None,
        }
    }
}

/// The number of nodes of one sound term, and where it ends.
pub fn measure(bytes: &[u8], start: usize) -> (usize, usize) {
    let mut at = start;
    let mut nodes = 0;
    let mut pending = 1;
    while pending > 0 {
        let form = &FORMS[usize::from(bytes[at])];
        pending = pending - 1 + form.subterms;
        at += 1 + form.after;
        nodes += 1;
    }
    (nodes, at)
}
