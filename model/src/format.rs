//! Document 01, "The recipe file": opening bytes, pairs, parts; and writing a file.

use crate::editions::{Edition, STARTING_PART, TABLE_PART};
use crate::limits;
use crate::nodes::{write_term, Node};
use crate::table::Entry;

/// The edition that byte 2 says, or `None` for cause 2: the first two bytes, a known edition, and n
/// as that edition has it.
pub fn edition_of(file: &[u8]) -> Option<Edition> {
    let edition = Edition::of(file[2])?;
    let n = usize::from(file[3]);
    (file[..2] == limits::OPENING && edition.parts().contains(&n)).then_some(edition)
}

/// A pair: the offset and the length of a part.
#[derive(Debug, Clone, Copy, PartialEq, Eq)]
pub struct Pair {
    pub offset: usize,
    pub length: usize,
}

/// Where the pairs end and the first part begins.
pub fn first_offset(n: usize) -> usize {
    4 + 4 * n
}

/// The n pairs, or `None` when the file ends before they do.
pub fn pairs(file: &[u8]) -> Option<Vec<Pair>> {
    let n = usize::from(file[3]);
    let bytes = file.get(4..first_offset(n))?;
    let number = |b: &[u8]| usize::from(u16::from_le_bytes([b[0], b[1]]));
    let pair = |b: &[u8]| Pair {
        offset: number(&b[..2]),
        length: number(&b[2..]),
    };
    Some(bytes.chunks_exact(4).map(pair).collect())
}

/// All parts, or `None` when the pairs break the layout: "The first part begins at 4 + 4n, each
/// next one where the former ends, the last ends with the file. No length is zero."
fn all_parts(file: &[u8]) -> Option<Vec<&[u8]>> {
    let pairs = pairs(file)?;
    let mut expected = first_offset(pairs.len());
    let mut parts = Vec::new();
    for pair in pairs {
        if pair.offset != expected || pair.length == 0 {
            return None;
        }
        expected += pair.length;
        parts.push(file.get(pair.offset..expected)?);
    }
    (expected == file.len()).then_some(parts)
}

/// The bytes of the parts of a file.
#[derive(Debug, Clone, Default, PartialEq, Eq)]
pub struct Parts<'f> {
    pub table: &'f [u8],
    /// Where the edition has one.
    pub starting: Option<&'f [u8]>,
    pub terms: Vec<&'f [u8]>,
}

/// The parts of a file of that edition, or `None` for cause 3.
pub fn parts(edition: Edition, file: &[u8]) -> Option<Parts<'_>> {
    let all = all_parts(file)?;
    let terms = all.get(edition.terms()..)?;
    let table = all[TABLE_PART];
    let entries = table.len() / limits::ENTRY_LENGTH;
    let whole = table.len() % limits::ENTRY_LENGTH == 0;
    (whole && limits::ENTRIES.contains(&entries)).then(|| Parts {
        table,
        starting: edition.starting.then(|| all[STARTING_PART]),
        terms: terms.to_vec(),
    })
}

impl Parts<'_> {
    /// The starting num of each bay, or `None` for cause 19: "a starting part whose length is not twice
    /// the number of bays". "Editions 1 and 2 keep the unwritten 0".
    pub fn starting_nums(&self) -> Option<Vec<u16>> {
        let part = match self.starting {
            Some(part) => part,
            None => return Some(vec![0; self.terms.len()]),
        };
        let num = |b: &[u8]| u16::from_le_bytes([b[0], b[1]]);
        let nums = part.chunks_exact(limits::STARTING_NUM_LENGTH).map(num);
        let whole = part.len() == limits::STARTING_NUM_LENGTH * self.terms.len();
        whole.then(|| nums.collect())
    }
}

/// A file with that edition byte and these parts, whatever they hold, laid out as document 01 says.
pub fn write_parts(edition: u8, parts: &[Vec<u8>]) -> Vec<u8> {
    let mut file = limits::OPENING.to_vec();
    file.push(edition);
    file.push(parts.len() as u8);
    let mut offset = first_offset(parts.len());
    for part in parts {
        file.extend_from_slice(&(offset as u16).to_le_bytes());
        file.extend_from_slice(&(part.len() as u16).to_le_bytes());
        offset += part.len();
    }
    for part in parts {
        file.extend_from_slice(part);
    }
    file
}

/// A recipe before it is bytes: its edition, its type entries, and for each bay a term and, where the
/// edition has them, a starting num.
#[derive(Debug, Clone, PartialEq, Eq)]
pub struct Recipe {
    pub edition: u8,
    pub entries: Vec<Entry>,
    pub starts: Vec<u16>,
    pub terms: Vec<Vec<Node>>,
}

impl Recipe {
    pub fn parts(&self) -> Vec<Vec<u8>> {
        let table = self.entries.iter().flat_map(|e| e.bytes()).collect();
        let mut parts: Vec<Vec<u8>> = vec![table];
        if Edition::of(self.edition).map_or(false, |edition| edition.starting) {
            parts.push(starting_part(&self.starts));
        }
        parts.extend(self.terms.iter().map(|term| write_term(term)));
        parts
    }

    pub fn write(&self) -> Vec<u8> {
        write_parts(self.edition, &self.parts())
    }

    /// "1,024 nodes over all terms"
    pub fn nodes(&self) -> usize {
        self.terms.iter().map(Vec::len).sum()
    }
}

/// "two bytes for each bay, its starting num"
pub fn starting_part(starts: &[u16]) -> Vec<u8> {
    starts.iter().flat_map(|num| num.to_le_bytes()).collect()
}

/// Two upper-case hexadecimal digits for each byte.
pub fn hexadecimal(bytes: &[u8]) -> String {
    bytes.iter().map(|b| format!("{b:02X}")).collect()
}

/// The bytes of a text of hexadecimal digits; anything else in it separates them.
pub fn bytes_of_hexadecimal(text: &str) -> Vec<u8> {
    let digits: Vec<u32> = text.chars().filter_map(|c| c.to_digit(16)).collect();
    let byte = |pair: &[u32]| (pair[0] * 16 + pair[1]) as u8;
    digits.chunks_exact(2).map(byte).collect()
}
