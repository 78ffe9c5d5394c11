//! Causes 1 to 4 in their order, then the terms: causes 5 to 8 in one pass, 9 to 11 in another; then
//! cause 19.

use crate::causes;
use crate::editions::{Edition, STARTING_PART, TABLE_PART};
use crate::limits;
use crate::plain::term::scan_term;
use crate::plain::walk::Walk;
use crate::table::{CELL, MANY, MANY_LIST, MANY_PAIR, NUM, ONCE, ONCE_LIST, ONCE_PAIR, UNIT};

/// The answer: the refusal or 0, the number of bays, and each bay's type number.
#[derive(Debug, Clone, Copy, PartialEq, Eq)]
pub struct Answer {
    pub refusal: u32,
    pub bays: u32,
    pub types: [u8; limits::MAX_BAYS],
}

impl Answer {
    pub fn refused(refusal: u32) -> Answer {
        Answer {
            refusal,
            bays: 0,
            types: [0; limits::MAX_BAYS],
        }
    }
}

/// The table as it stands in the file.
#[derive(Clone, Copy)]
pub struct PlainTable<'a> {
    bytes: &'a [u8],
}

impl PlainTable<'_> {
    pub fn entries(self) -> usize {
        self.bytes.len() / limits::ENTRY_LENGTH
    }

    pub fn entry(self, number: u8) -> (u8, u8, u8) {
        let at = usize::from(number) * limits::ENTRY_LENGTH;
        (self.bytes[at], self.bytes[at + 1], self.bytes[at + 2])
    }

    pub fn is_once(self, number: u8) -> bool {
        let kind = self.bytes[usize::from(number) * limits::ENTRY_LENGTH];
        matches!(kind, ONCE | ONCE_PAIR | ONCE_LIST)
    }
}

/// The verdict on a file.
pub fn check(file: &[u8]) -> Answer {
    match try_check(file) {
        Ok(answer) => answer,
        Err(refusal) => Answer::refused(refusal),
    }
}

fn try_check(file: &[u8]) -> Result<Answer, u32> {
    if !limits::FILE_BYTES.contains(&file.len()) {
        return Err(causes::FILE_LENGTH);
    }
    let n = usize::from(file[3]);
    let edition = Edition::of(file[2]).ok_or(causes::OPENING)?;
    if file[..2] != limits::OPENING || !edition.parts().contains(&n) {
        return Err(causes::OPENING);
    }
    check_pairs(file, n)?;
    let parts = PlainParts { file, edition };
    let table = parts.table();
    if !table_is_sound(edition, table) {
        return Err(causes::TYPE_ENTRY);
    }
    scan_terms(parts, table)?;
    let answer = walk_terms(parts, table)?;
    match parts.starting() {
        Some(starting) if starting.len() != limits::STARTING_NUM_LENGTH * parts.bays() => {
            Err(causes::STARTING)
        }
        _ => Ok(answer),
    }
}

/// The parts of a file whose pairs are sound.
#[derive(Clone, Copy)]
pub struct PlainParts<'a> {
    file: &'a [u8],
    edition: Edition,
}

impl<'a> PlainParts<'a> {
    /// Of a file that is accepted.
    pub fn of_accepted(file: &'a [u8]) -> PlainParts<'a> {
        let edition = Edition::of(file[2]).expect("an accepted file has an edition");
        PlainParts { file, edition }
    }

    fn bays(self) -> usize {
        usize::from(self.file[3]) - self.edition.terms()
    }

    /// The part that pair i names.
    fn part(self, i: usize) -> &'a [u8] {
        let offset = number_at(self.file, 4 + 4 * i);
        &self.file[offset..offset + number_at(self.file, 6 + 4 * i)]
    }

    fn table(self) -> PlainTable<'a> {
        PlainTable {
            bytes: self.part(TABLE_PART),
        }
    }

    pub fn starting(self) -> Option<&'a [u8]> {
        self.edition.starting.then(|| self.part(STARTING_PART))
    }

    pub fn term(self, bay: usize) -> &'a [u8] {
        self.part(self.edition.terms() + bay)
    }
}

fn number_at(file: &[u8], at: usize) -> usize {
    usize::from(file[at]) + 256 * usize::from(file[at + 1])
}

fn check_pairs(file: &[u8], n: usize) -> Result<(), u32> {
    let mut expected = 4 + 4 * n;
    if file.len() < expected {
        return Err(causes::LAYOUT);
    }
    for i in 0..n {
        let length = number_at(file, 6 + 4 * i);
        if number_at(file, 4 + 4 * i) != expected || length == 0 {
            return Err(causes::LAYOUT);
        }
        expected += length;
    }
    let table_length = number_at(file, 6);
    if expected != file.len() || !table_length_is_sound(table_length) {
        return Err(causes::LAYOUT);
    }
    Ok(())
}

fn table_length_is_sound(length: usize) -> bool {
    length % limits::ENTRY_LENGTH == 0 && limits::ENTRIES.contains(&(length / limits::ENTRY_LENGTH))
}

fn table_is_sound(edition: Edition, table: PlainTable) -> bool {
    if table.bytes[..9] != [0, 0, 0, 1, 0, 0, 2, 1, 0] {
        return false;
    }
    let mut keys = [0u32; limits::MAX_ENTRIES];
    for (own, e) in table.bytes.chunks_exact(limits::ENTRY_LENGTH).enumerate() {
        if !edition.has_kind(e[0]) || !entry_is_sound(table, own, e) {
            return false;
        }
        keys[own] = u32::from_be_bytes([0, e[0], e[1], e[2]]);
    }
    let keys = &mut keys[..table.entries()];
    keys.sort_unstable();
    keys.windows(2).all(|pair| pair[0] != pair[1])
}

/// The rule that an entry keeps by itself.
fn entry_is_sound(table: PlainTable, own: usize, e: &[u8]) -> bool {
    let (p, q) = (usize::from(e[1]), usize::from(e[2]));
    match e[0] {
        UNIT | NUM => p == 0 && q == 0,
        CELL | ONCE_LIST => p < own && q == 0,
        ONCE | MANY | ONCE_PAIR => p < own && q < own,
        MANY_PAIR => p < own && q < own && !table.is_once(e[1]) && !table.is_once(e[2]),
        MANY_LIST => p < own && q == 0 && !table.is_once(e[1]),
        _ => false,
    }
}

fn scan_terms(parts: PlainParts, table: PlainTable) -> Result<(), u32> {
    let bays = parts.bays();
    let mut nodes = 0;
    let mut lowest = u32::MAX;
    for bay in 0..bays {
        let scanned = scan_term(parts.edition, parts.term(bay), table, bays)?;
        nodes += scanned.nodes;
        lowest = lowest.min(scanned.lowest);
    }
    if nodes > limits::MAX_RECIPE_NODES {
        return Err(causes::TERM_SIZE);
    }
    if lowest != u32::MAX {
        return Err(lowest);
    }
    Ok(())
}

fn walk_terms(parts: PlainParts, table: PlainTable) -> Result<Answer, u32> {
    let bays = parts.bays();
    let mut answer = Answer::refused(0);
    answer.bays = bays as u32;
    let mut misused = false;
    let mut once = false;
    for bay in 0..bays {
        let mut walk = Walk::new(parts.term(bay), table);
        let found = walk.term().ok_or(causes::TYPE)?;
        misused |= walk.misused;
        once |= table.is_once(found);
        answer.types[bay] = found;
    }
    match (misused, once) {
        (true, _) => Err(causes::LINEARITY),
        (_, true) => Err(causes::BAY_ONCE),
        _ => Ok(answer),
    }
}
