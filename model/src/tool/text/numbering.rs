//! The numbers of the types of a text: those it lists, and after them those it uses besides.

use crate::limits;
use crate::table::{Entry, FIRST_ENTRIES};
use std::collections::HashMap;

#[derive(Debug, Default)]
pub struct Numbering {
    pub entries: Vec<Entry>,
    numbers: HashMap<Entry, u8>,
}

impl Numbering {
    /// One more entry, equal to another or not; `None` when there is no room.
    pub fn list(&mut self, entry: Entry) -> Option<u8> {
        if self.entries.len() >= *limits::ENTRIES.end() {
            return None;
        }
        let number = u8::try_from(self.entries.len()).ok()?;
        self.entries.push(entry);
        self.numbers.entry(entry).or_insert(number);
        Some(number)
    }

    /// Entries 0, 1, 2, where they are not listed.
    pub fn complete_first(&mut self) {
        for first in FIRST_ENTRIES.iter().skip(self.entries.len()) {
            self.list(*first);
        }
    }

    /// The number of a type that has one.
    pub fn known(&self, entry: Entry) -> Option<u8> {
        self.numbers.get(&entry).copied()
    }

    /// The number of a type, new or not; `None` when there is no room.
    pub fn number_of(&mut self, entry: Entry) -> Option<u8> {
        self.known(entry).or_else(|| self.list(entry))
    }
}
