//! Expressions and images of a given size, as bytes.

use crate::kinds;
use crate::limits::{FIRST_HEAD, HEAD_LENGTH};
use crate::tags;

/// An image of threads, one for each expression.
pub fn image_of(expressions: &[Vec<u8>]) -> Vec<u8> {
    let mut image = (expressions.len() as u16).to_le_bytes().to_vec();
    let mut offset = FIRST_HEAD + HEAD_LENGTH * expressions.len();
    for expression in expressions {
        image.extend([kinds::THREAD, 0]);
        image.extend((offset as u16).to_le_bytes());
        image.extend((expression.len() as u16).to_le_bytes());
        offset += expression.len();
    }
    image.extend(expressions.concat());
    image
}

/// Applications of these leaves, so many times over, each to what follows; the last one to unit.
pub fn chain(leaves: &[&[u8]], times: usize) -> Vec<u8> {
    let link = |leaf: &&[u8]| [&[tags::APPLICATION], *leaf].concat();
    let links: Vec<u8> = leaves.iter().flat_map(link).collect();
    [links.repeat(times), vec![tags::UNIT]].concat()
}

/// A lambda with that body.
pub fn lambda(body: &[u8]) -> Vec<u8> {
    [&[tags::LAMBDA, 0], body].concat()
}

/// A value of so many nodes, an even number.
pub fn value_of(nodes: usize) -> Vec<u8> {
    lambda(&chain(&[&[tags::UNIT]], (nodes - 2) / 2))
}
