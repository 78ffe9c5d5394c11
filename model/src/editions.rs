//! The editions of the recipe file, told by byte 2: each has the first so many kinds of types and
//! node forms, and a starting part or none. An image has no edition.

use crate::limits::{MAX_PARTS, MIN_PARTS};
use crate::nodes::{Node, NodeForm, FORMS};
use crate::table::{self, Entry};
use crate::tags;
use std::ops::RangeInclusive;

/// The part that is the type table, and the starting part where the edition has one.
pub const TABLE_PART: usize = 0;
pub const STARTING_PART: usize = 1;

#[derive(Debug, Clone, Copy, PartialEq, Eq)]
pub struct Edition {
    pub number: u8,
    last_kind: u8,
    last_tag: u8,
    /// Whether a part with each bay's starting num stands between the type table and the terms.
    pub starting: bool,
}

/// Document 01's.
pub const FIRST: Edition = Edition {
    number: 1,
    last_kind: table::MANY,
    last_tag: tags::NAME,
    starting: false,
};

/// Document 02, T-03: pairs and lists.
pub const SECOND: Edition = Edition {
    number: 2,
    last_kind: table::MANY_LIST,
    last_tag: tags::CASE_LIST,
    starting: false,
};

/// Document 02, T-07: "Edition 3 is edition 2 with a part between the type table and the terms"
pub const THIRD: Edition = Edition {
    number: 3,
    starting: true,
    ..SECOND
};

pub const ALL: [Edition; 3] = [FIRST, SECOND, THIRD];

impl Edition {
    /// The edition of that number, if it is a known one.
    pub fn of(number: u8) -> Option<Edition> {
        ALL.into_iter().find(|edition| edition.number == number)
    }

    /// The part that is the first bay's term.
    pub fn terms(self) -> usize {
        TABLE_PART + 1 + usize::from(self.starting)
    }

    /// The numbers of parts: 2 to 17, or one more with a starting part.
    pub fn parts(self) -> RangeInclusive<usize> {
        let more = usize::from(self.starting);
        MIN_PARTS + more..=MAX_PARTS + more
    }

    /// Starting nums of 0 for so many bays, where the edition has any.
    pub fn zeros(self, bays: usize) -> Vec<u16> {
        vec![0; if self.starting { bays } else { 0 }]
    }

    pub fn has_kind(self, kind: u8) -> bool {
        kind <= self.last_kind
    }

    pub fn has_node(self, node: Node) -> bool {
        node.tag() <= self.last_tag
    }

    /// The node forms that a term of this edition is read by.
    pub fn forms(self) -> &'static [NodeForm] {
        &FORMS[..=usize::from(self.last_tag)]
    }
}

/// The first edition that has all of these kinds and nodes; the second where none does.
pub fn least(entries: &[Entry], terms: &[Vec<Node>]) -> Edition {
    let has_all = |edition: &Edition| {
        let kinds = entries.iter().all(|e| edition.has_kind(e.kind));
        kinds && terms.iter().flatten().all(|node| edition.has_node(*node))
    };
    ALL.into_iter().find(has_all).unwrap_or(SECOND)
}
