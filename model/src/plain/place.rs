//! The place where a thread goes on, on bytes, in one pass.

use crate::nodes::FORMS;
use crate::plain::image::measure;
use crate::tags;

/// Where a meeting or a case of a value begins and ends in the expression, and where its second
/// subterm begins: the argument, or the body.
#[derive(Clone, Copy)]
pub struct Place {
    pub start: usize,
    pub second: usize,
    pub end: usize,
    pub second_nodes: usize,
}

impl Place {
    /// Where the function or the subject stands.
    pub fn first(self) -> usize {
        self.start + 1
    }
}

/// Where a value that begins there ends; or where what is no value begins, an application or a case
/// under no lambda.
fn value_or_stuck(bytes: &[u8], from: usize) -> Result<usize, usize> {
    let mut at = from;
    let mut pending = 1;
    while pending > 0 {
        let tag = bytes[at];
        pending -= 1;
        match tag {
            tags::APPLICATION if bytes[at + 1] == tags::EXCH => {
                pending += 1;
                at += 3;
            }
            tags::APPLICATION | tags::CASE_PAIR | tags::CASE_LIST => return Err(at),
            tags::PAIR | tags::LIST => {
                pending += 2;
                at += 2;
            }
            tags::LAMBDA => at = measure(bytes, at).1,
            _ => at += 1 + FORMS[usize::from(tag)].after,
        }
    }
    Ok(at)
}

pub fn is_value(bytes: &[u8]) -> bool {
    value_or_stuck(bytes, 0).is_ok()
}

/// The place, or nothing for a value.
pub fn find(bytes: &[u8]) -> Option<Place> {
    let mut start = value_or_stuck(bytes, 0).err()?;
    loop {
        let second = match value_or_stuck(bytes, start + 1) {
            Err(inner) => {
                start = inner;
                continue;
            }
            Ok(end) => end,
        };
        if bytes[start] == tags::APPLICATION {
            if let Err(inner) = value_or_stuck(bytes, second) {
                start = inner;
                continue;
            }
        }
        let (second_nodes, end) = measure(bytes, second);
        return Some(Place {
            start,
            second,
            end,
            second_nodes,
        });
    }
}
