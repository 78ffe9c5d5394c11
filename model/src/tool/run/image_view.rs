//! What a run shows of an image: its threads, the settings, and whose each name is.

use crate::image::{names_of_kind, owners};
use crate::kinds::{CELL, FUTURE, OPEN_HANDLE, THREAD, USED_HANDLE};
use crate::limits::{FIRST_HEAD, HEAD_LENGTH};
use crate::tags;

/// What the setting of a bay holds.
#[derive(Debug, Clone, Copy, PartialEq, Eq)]
pub enum Vent {
    /// A num: a vent's is in tenths of a percent.
    Open(u16),
    /// A name, and the num that a finished thread holds under it, if it does already.
    Named(u8, Option<u16>),
    /// Nothing that a setting can hold.
    Unknown,
}

impl Vent {
    /// The opening, if it is known.
    pub fn opening(self) -> Option<u16> {
        match self {
            Vent::Open(value) => Some(value),
            Vent::Named(_, value) => value,
            Vent::Unknown => None,
        }
    }
}

#[derive(Clone, Copy)]
pub struct ImageView<'i>(pub &'i [u8]);

impl<'i> ImageView<'i> {
    fn names(self) -> usize {
        self.number(0).unwrap_or(0)
    }

    fn number(self, at: usize) -> Option<usize> {
        let bytes = self.0.get(at..at + 2)?;
        Some(usize::from(u16::from_le_bytes([bytes[0], bytes[1]])))
    }

    fn head(self, name: usize) -> usize {
        FIRST_HEAD + HEAD_LENGTH * name
    }

    fn kind(self, name: usize) -> Option<u8> {
        self.0.get(self.head(name)).copied()
    }

    fn expression(self, name: usize) -> Option<&'i [u8]> {
        let offset = self.number(self.head(name) + 2)?;
        let length = self.number(self.head(name) + 4)?;
        self.0.get(offset..offset + length)
    }

    /// The numbers of the threads.
    pub fn threads(self) -> Vec<u64> {
        names_of_kind(self.0, THREAD)
    }

    /// The bay that each name belongs to.
    pub fn owners(self) -> Vec<u8> {
        owners(self.0)
    }

    /// The bay that a name belongs to, if there is such a name.
    pub fn owner(self, name: u64) -> Option<u8> {
        let name = usize::try_from(name).ok()?;
        self.owners().get(name).copied()
    }

    /// A name and whose it is: name 12, a future of bay 2.
    pub fn whose(self, name: u32) -> String {
        let kind = match self.kind(name as usize) {
            Some(THREAD) => "a thread",
            Some(CELL) => "a cell",
            Some(OPEN_HANDLE | USED_HANDLE) => "a handle",
            Some(FUTURE) => "a future",
            _ => "unknown",
        };
        match self.owner(u64::from(name)) {
            Some(bay) => format!("name {name}, {kind} of bay {bay}"),
            None => format!("name {name}, {kind}"),
        }
    }

    /// The settings of the first names, one for each bay.
    pub fn vents(self, bays: usize) -> Vec<Vent> {
        (0..bays).map(|bay| self.vent(bay)).collect()
    }

    fn vent(self, bay: usize) -> Vent {
        match self.expression(bay) {
            Some([tags::NUM, low, high]) => Vent::Open(u16::from_le_bytes([*low, *high])),
            Some([tags::NAME, name]) => Vent::Named(*name, self.value_of(*name)),
            _ => Vent::Unknown,
        }
    }

    /// The num at the end of the names that finished threads hold.
    fn value_of(self, name: u8) -> Option<u16> {
        let mut here = name;
        for _ in 0..self.names() {
            if self.kind(usize::from(here)) != Some(THREAD) {
                return None;
            }
            match self.expression(usize::from(here))? {
                [tags::NUM, low, high] => return Some(u16::from_le_bytes([*low, *high])),
                [tags::NAME, next] => here = *next,
                _ => return None,
            }
        }
        None
    }
}
