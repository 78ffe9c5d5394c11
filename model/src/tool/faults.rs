//! Why a file is refused, and where: the lowest cause that fits, its first place, what was found.

pub mod bytes;
pub mod entries;
pub mod marks;
pub mod separate;
pub mod starting;
pub mod terms;
pub mod typing;
pub mod usage;

use crate::editions::{self, Edition};
use crate::format::{self, pairs};
use crate::nodes::{Node, FORMS};
use crate::profile::Profile;
use crate::table::{entries_of, Entry};
use crate::tool::text::spot::Spot;
use std::fmt;

/// A part of a file.
#[derive(Debug, Clone, Copy, PartialEq, Eq)]
pub enum Part {
    Table,
    Starting,
    /// The term of that bay.
    Bay(usize),
}

impl Part {
    /// The part of that number, 0 first, in a file of that edition.
    pub fn of(edition: Edition, number: usize) -> Part {
        match number.checked_sub(edition.terms()) {
            Some(bay) => Part::Bay(bay),
            None if number == 0 => Part::Table,
            None => Part::Starting,
        }
    }
}

impl fmt::Display for Part {
    fn fmt(&self, f: &mut fmt::Formatter<'_>) -> fmt::Result {
        match self {
            Part::Table => write!(f, "the type table"),
            Part::Starting => write!(f, "the starting part"),
            Part::Bay(bay) => write!(f, "bay {bay}"),
        }
    }
}

/// Where a fault is.
#[derive(Debug, Clone, PartialEq, Eq)]
pub enum Place {
    File,
    Opening,
    /// The pair of that part.
    Pair(Part),
    Entry(usize),
    /// The starting part.
    Starting,
    /// A bay, the position of a node among its nodes, and the path to it.
    Node(usize, usize, String),
}

impl fmt::Display for Place {
    fn fmt(&self, f: &mut fmt::Formatter<'_>) -> fmt::Result {
        match self {
            Place::File => write!(f, "the file as a whole"),
            Place::Opening => write!(f, "the opening bytes"),
            Place::Pair(part) => write!(f, "the pair of {part}"),
            Place::Entry(number) => write!(f, "{}, entry {number}", Part::Table),
            Place::Starting => write!(f, "{}", Part::Starting),
            Place::Node(bay, _, path) => write!(f, "bay {bay}, {path}"),
        }
    }
}

/// A refusal with its place.
#[derive(Debug, Clone, PartialEq, Eq)]
pub struct Fault {
    pub number: u32,
    pub place: Place,
    /// Counted from the first byte of the file, which is 0.
    pub offset: usize,
    pub found: String,
}

/// What is wrong with a file, if anything is, in the common profile.
pub fn fault(file: &[u8]) -> Option<Fault> {
    fault_in(Profile::Common, file, &[])
}

/// The same in that profile, for a file made from a text in the text's own names and places.
pub fn fault_in(profile: Profile, file: &[u8], spots: &[Vec<Spot>]) -> Option<Fault> {
    find(profile, file, spots).err()
}

fn find(profile: Profile, file: &[u8], spots: &[Vec<Spot>]) -> Result<(), Fault> {
    bytes::length(file)?;
    let edition = bytes::opening(file)?;
    bytes::layout(edition, file)?;
    let recipe = Parts {
        spots,
        ..Parts::of(file)
    };
    entries::entries(&recipe)?;
    let terms = terms::exactly_one(&recipe)?;
    terms::limits(&recipe, &terms)?;
    terms::names_something(&recipe, &terms)?;
    typing::fit_types(&recipe, &terms)?;
    typing::agree(&recipe, &terms)?;
    usage::once(&recipe, &terms)?;
    usage::bays_are_many(&recipe, &terms)?;
    starting::twice_the_bays(&recipe)?;
    match profile {
        Profile::Common => Ok(()),
        Profile::Separate => {
            separate::own_settings(&recipe, &terms)?;
            separate::within_shares(&recipe, &terms)
        }
    }
}

/// The parts of a file whose layout is sound, and where they begin.
pub struct Parts<'a> {
    /// The first, where the file says none.
    pub edition: Edition,
    pub entries: Vec<Entry>,
    /// The starting part, where the edition has one.
    starting: Option<&'a [u8]>,
    /// The bays' starting nums, where these are what the starting part holds.
    starts: Option<Vec<u16>>,
    pub terms: Vec<&'a [u8]>,
    offsets: Vec<usize>,
    spots: &'a [Vec<Spot>],
}

impl<'a> Parts<'a> {
    /// Empty where the layout is not sound.
    pub fn of(file: &'a [u8]) -> Parts<'a> {
        let opened = (file.len() >= 4).then_some(file);
        let said = opened.and_then(|file| Edition::of(file[2]));
        let edition = said.unwrap_or(editions::FIRST);
        let parts = opened.and_then(|file| format::parts(edition, file));
        let parts = parts.unwrap_or_default();
        let pairs = opened.and_then(pairs).unwrap_or_default();
        Parts {
            edition,
            entries: entries_of(parts.table),
            starting: parts.starting,
            starts: parts.starting.and_then(|_| parts.starting_nums()),
            terms: parts.terms,
            offsets: pairs.iter().map(|pair| pair.offset).collect(),
            spots: &[],
        }
    }

    /// Where the bay's nodes stand in the text, if the file was made from one.
    pub fn spots(&self, bay: usize) -> &'a [Spot] {
        self.spots.get(bay).map_or(&[], Vec::as_slice)
    }

    /// Where the table begins.
    pub fn table_offset(&self) -> usize {
        self.offsets.first().copied().unwrap_or(0)
    }

    /// The starting part, where it is of another length than the bays' starting nums.
    pub fn other_starting_part(&self) -> Option<&'a [u8]> {
        self.starting.filter(|_| self.starts.is_none())
    }

    /// The bay's starting num, where the file says one.
    pub fn start(&self, bay: usize) -> Option<u16> {
        self.starts.as_ref()?.get(bay).copied()
    }

    /// Where the starting part begins.
    pub fn starting_offset(&self) -> usize {
        self.offsets.get(1).copied().unwrap_or(0)
    }

    /// Where the bay's term begins.
    pub fn bay_offset(&self, bay: usize) -> usize {
        let part = self.edition.terms() + bay;
        self.offsets.get(part).copied().unwrap_or(0)
    }

    /// Where the node at that position begins.
    pub fn node_offset(&self, bay: usize, nodes: &[Node], at: usize) -> usize {
        let length = |node: &Node| 1 + FORMS[usize::from(node.tag())].after;
        self.bay_offset(bay) + nodes[..at].iter().map(length).sum::<usize>()
    }
}
