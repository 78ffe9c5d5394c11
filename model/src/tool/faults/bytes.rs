//! Causes 1 to 3: the length, the opening bytes, the layout.

use crate::causes;
use crate::editions::Edition;
use crate::format::{first_offset, pairs, Pair};
use crate::limits;
use crate::tool::faults::{Fault, Part, Place};

fn refuse<T>(number: u32, place: Place, offset: usize, found: String) -> Result<T, Fault> {
    Err(Fault {
        number,
        place,
        offset,
        found,
    })
}

/// Cause 1.
pub fn length(file: &[u8]) -> Result<(), Fault> {
    if limits::FILE_BYTES.contains(&file.len()) {
        return Ok(());
    }
    let found = format!("the file has {} bytes", file.len());
    refuse(causes::FILE_LENGTH, Place::File, 0, found)
}

/// Cause 2. The edition, if there is no fault.
pub fn opening(file: &[u8]) -> Result<Edition, Fault> {
    let n = usize::from(file[3]);
    if file[..2] != limits::OPENING {
        let found = format!(
            "bytes 0 and 1 are {:02X} {:02X}, not 4C 46",
            file[0], file[1]
        );
        return refuse(causes::OPENING, Place::Opening, 0, found);
    }
    let edition = match Edition::of(file[2]) {
        Some(edition) => edition,
        None => {
            let found = format!("the edition is {:02X}, not 01, 02 or 03", file[2]);
            return refuse(causes::OPENING, Place::Opening, 2, found);
        }
    };
    if !edition.parts().contains(&n) {
        let (least, most) = edition.parts().into_inner();
        let found = format!(
            "n, the number of parts, is {n}; in edition {} it is {least} to {most}",
            edition.number
        );
        return refuse(causes::OPENING, Place::Opening, 3, found);
    }
    Ok(edition)
}

/// Cause 3.
pub fn layout(edition: Edition, file: &[u8]) -> Result<(), Fault> {
    let n = usize::from(file[3]);
    let last = Place::Pair(Part::of(edition, n - 1));
    let pairs = match pairs(file) {
        Some(pairs) => pairs,
        None => {
            let found = format!(
                "{n} pairs end at byte {}, and the file has {} bytes",
                first_offset(n),
                file.len()
            );
            return refuse(causes::LAYOUT, last, file.len(), found);
        }
    };
    let mut expected = first_offset(n);
    for (number, pair) in pairs.iter().enumerate() {
        let place = Place::Pair(Part::of(edition, number));
        pair_is_sound(file, (place, 4 + 4 * number), *pair, expected)?;
        expected += pair.length;
    }
    if expected != file.len() {
        let over = file.len() - expected;
        let found = format!("the last part ends at byte {expected}, and {over} more bytes follow");
        return refuse(causes::LAYOUT, last, expected, found);
    }
    table_length(pairs[0].length)
}

/// Whether the pair that stands there begins its part where the part before it ends, inside the file.
fn pair_is_sound(
    file: &[u8],
    (place, at): (Place, usize),
    pair: Pair,
    expected: usize,
) -> Result<(), Fault> {
    if pair.offset != expected {
        let found = format!(
            "the part's offset is {}, but the bytes before it end at {expected}",
            pair.offset
        );
        return refuse(causes::LAYOUT, place, at, found);
    }
    if pair.length == 0 {
        let found = "the part's length is 0".to_owned();
        return refuse(causes::LAYOUT, place, at + 2, found);
    }
    let end = pair.offset + pair.length;
    if end > file.len() {
        let found = format!(
            "the part ends at byte {end}, and the file has {} bytes",
            file.len()
        );
        return refuse(causes::LAYOUT, place, at + 2, found);
    }
    Ok(())
}

fn table_length(length: usize) -> Result<(), Fault> {
    let entries = length / limits::ENTRY_LENGTH;
    let whole = length % limits::ENTRY_LENGTH == 0;
    if whole && limits::ENTRIES.contains(&entries) {
        return Ok(());
    }
    let found = format!("the type table has {length} bytes");
    refuse(causes::LAYOUT, Place::Pair(Part::Table), 6, found)
}
