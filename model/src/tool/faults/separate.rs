//! Causes 20 and 21, of the separate profile: a bay that names another's setting, a bay that starts above
//! its share.

use crate::causes;
use crate::nodes::Node;
use crate::profile;
use crate::tool::faults::terms::at_node;
use crate::tool::faults::{Fault, Parts};

/// Cause 20.
pub fn own_settings(recipe: &Parts, terms: &[Vec<Node>]) -> Result<(), Fault> {
    for (bay, nodes) in terms.iter().enumerate() {
        for (at, node) in nodes.iter().enumerate() {
            match node {
                Node::Name(k) if usize::from(*k) != bay => {
                    let found = format!("setting{k}, and bay {bay} may name setting{bay} only");
                    let place = (bay, at);
                    return Err(at_node(recipe, causes::OTHER_SETTING, place, nodes, found));
                }
                _ => (),
            }
        }
    }
    Ok(())
}

/// Nodes of a setting that is loaded: its num.
const SETTING_NODES: usize = 1;

/// Cause 21. Names are never above a share at the start: each bay has two.
pub fn within_shares(recipe: &Parts, terms: &[Vec<Node>]) -> Result<(), Fault> {
    let bays = terms.len();
    for (bay, nodes) in terms.iter().enumerate() {
        let share = profile::share(bays).nodes;
        if nodes.len() + SETTING_NODES > share {
            let found = format!(
                "bay {bay} has {} nodes and {SETTING_NODES} in its setting; with {bays} bays each one's share is {share}",
                nodes.len()
            );
            // the first node above it
            let place = (bay, share - SETTING_NODES);
            return Err(at_node(recipe, causes::SHARE, place, nodes, found));
        }
    }
    Ok(())
}
