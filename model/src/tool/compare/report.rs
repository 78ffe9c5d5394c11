//! A difference in full, for people.

use crate::format::hexadecimal;
use crate::kinds::OPEN_HANDLE;
use crate::limits::{FIRST_HEAD, HEAD_LENGTH};
use crate::tool::compare::pair::Difference;
use std::fmt::Write;

pub fn in_full(difference: &Difference) -> String {
    let mut text = format!("difference: {}\n", difference.call);
    if let Some(recipe) = &difference.recipe {
        let _ = writeln!(text, "recipe: {}", hexadecimal(recipe));
    }
    if let Some(image) = &difference.image {
        let _ = writeln!(text, "image:  {}", hexadecimal(image));
    }
    let names = ["A", "B", "the model"];
    for (name, answer) in names.iter().zip(&difference.answers) {
        let _ = writeln!(text, "{name} answers: {answer}");
    }
    if let Some(at) = first_different(&difference.outs[0], &difference.outs[1]) {
        let bytes: Vec<String> = names
            .iter()
            .zip(&difference.outs)
            .filter_map(|(name, out)| Some(format!("{name} has {:02X}", out.get(at)?)))
            .collect();
        let place = head_byte(&difference.outs[0], at).unwrap_or_default();
        let _ = writeln!(
            text,
            "first differing byte of the out buffer: {at}{place}, where {}",
            bytes.join(", ")
        );
    } else if !difference.outs[0].is_empty() {
        text += "the out buffers are equal\n";
    }
    text
}

fn first_different(a: &[u8], b: &[u8]) -> Option<usize> {
    a.iter().zip(b).position(|(a, b)| a != b)
}

/// What a byte of an image says, if it stands in a head.
fn head_byte(image: &[u8], at: usize) -> Option<String> {
    let names = image.get(..FIRST_HEAD)?;
    let names = usize::from(u16::from_le_bytes([names[0], names[1]]));
    let beyond = at.checked_sub(FIRST_HEAD)?;
    let (name, place) = (beyond / HEAD_LENGTH, beyond % HEAD_LENGTH);
    let kind = *image.get(at - place)?;
    let what = match place {
        0 => "kind",
        1 if kind == OPEN_HANDLE => "number of the future",
        1 => "owner",
        2 | 3 => "offset",
        _ => "length",
    };
    (name < names).then(|| format!(" (the {what} of name {name})"))
}
