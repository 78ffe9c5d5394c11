//! Document 02, T-09, "Separate bays": the two profiles, what a bay's share is, and what a bay owns.

use crate::causes;
use crate::config::{Component, Configuration};
use crate::limits;
use crate::nodes::Node;

/// Whose loader and stepper: document 01's, or the "second loader and a second stepper".
#[derive(Debug, Clone, Copy, PartialEq, Eq)]
pub enum Profile {
    Common,
    /// "a profile in which one tenant's recipe can't reach another's vents"
    Separate,
}

pub const PROFILES: [Profile; 2] = [Profile::Common, Profile::Separate];

impl Profile {
    /// Whether a rule's outcome has room; the rule was about to change the first configuration.
    pub fn has_room(self, handed_in: &Configuration, outcome: &Configuration) -> bool {
        match self {
            Profile::Common => outcome.is_within_limits(),
            Profile::Separate => keeps_shares(outcome, bays(handed_in)),
        }
    }

    /// What a loader refuses of a recipe that the checker accepts: "both after 19".
    pub fn refusal(self, terms: &[Vec<Node>], starting: &Configuration) -> Option<u32> {
        match self {
            Profile::Common => None,
            Profile::Separate if names_another(terms) => Some(causes::OTHER_SETTING),
            Profile::Separate if !keeps_shares(starting, terms.len()) => Some(causes::SHARE),
            Profile::Separate => None,
        }
    }
}

/// Numbers of names and of nodes: what a bay owns, or may own.
#[derive(Debug, Clone, Copy, PartialEq, Eq)]
pub struct Amount {
    pub names: usize,
    pub nodes: usize,
}

impl Amount {
    pub fn is_within(self, share: Amount) -> bool {
        self.names <= share.names && self.nodes <= share.nodes
    }
}

/// "4,096 divided by b nodes and 256 divided by b names, rounded down"; b is at least 1.
pub fn share(bays: usize) -> Amount {
    Amount {
        names: limits::MAX_NAMES / bays,
        nodes: limits::MAX_NODES / bays,
    }
}

/// "counted over what it owns": names of every kind, and the nodes of its cells and threads.
pub fn owned(configuration: &Configuration, bay: usize) -> Amount {
    let all = configuration.components.iter().zip(&configuration.owners);
    let own = all.filter(|(_, owner)| usize::from(**owner) == bay);
    let components: Vec<&Component> = own.map(|(component, _)| component).collect();
    let expressions = components.iter().filter_map(|one| one.expression());
    Amount {
        names: components.len(),
        nodes: expressions.map(|e| e.size()).sum(),
    }
}

/// "one more than the highest owner", whether the bays below it own something or not; 0 without names.
pub fn bays(configuration: &Configuration) -> usize {
    let owners = configuration.owners.iter();
    owners.max().map_or(0, |highest| usize::from(*highest) + 1)
}

/// Whether no bay is above its share of b.
pub fn keeps_shares(configuration: &Configuration, bays: usize) -> bool {
    (0..bays).all(|bay| owned(configuration, bay).is_within(share(bays)))
}

/// Cause 20: not "bay k's terms name only setting k", wherever in its term the name stands.
fn names_another(terms: &[Vec<Node>]) -> bool {
    let names_another = |(bay, term): (usize, &Vec<Node>)| {
        term.iter().any(|node| match node {
            Node::Name(k) => usize::from(*k) != bay,
            _ => false,
        })
    };
    terms.iter().enumerate().any(names_another)
}
