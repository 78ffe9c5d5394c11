//! Recipes brought to a limit exactly, keeping their types: more nodes, deeper nesting.

use crate::draw::Draw;
use crate::generate::recipes::Draft;
use crate::limits;
use crate::nodes::{standings, Node};
use crate::table::{NUM_ENTRY, SETTING_ENTRY, UNIT_ENTRY};
use crate::types::{Constant, Multiplicity, Shape};
use std::ops::Range;

/// The types that growth needs.
struct Steps {
    unit_to_unit: u8,
    num_to_num: u8,
    num_to_unit: u8,
    exch: u8,
    /// unit ×ω unit, where the edition has pairs.
    units: Option<u8>,
}

impl Steps {
    fn new(draft: &mut Draft) -> Option<Steps> {
        let many = Multiplicity::Many;
        let table = &mut draft.table;
        let num_to_num = table.function(many, NUM_ENTRY, NUM_ENTRY)?;
        Some(Steps {
            unit_to_unit: table.function(many, UNIT_ENTRY, UNIT_ENTRY)?,
            num_to_num,
            num_to_unit: table.function(many, NUM_ENTRY, UNIT_ENTRY)?,
            exch: table.function(many, SETTING_ENTRY, num_to_num)?,
            units: table.pair(many, UNIT_ENTRY, UNIT_ENTRY),
        })
    }

    /// The leaf under an identity: three nodes more.
    fn identity(&self, leaf: Node) -> [Node; 4] {
        let whole = match leaf {
            Node::Unit => self.unit_to_unit,
            _ => self.num_to_num,
        };
        [
            Node::Application,
            Node::Lambda(whole),
            Node::Variable(0),
            leaf,
        ]
    }

    /// What stands around a term like this leaf, one level further out: an identity, or a case; one
    /// node more is one level deeper than the term.
    fn around(&self, draw: &mut Draw, leaf: Node) -> Vec<Node> {
        match self.units.filter(|_| draw.one_in(2)) {
            Some(units) => {
                let pair = Node::Pair(units);
                vec![Node::Case(Shape::Pair), pair, Node::Unit, Node::Unit]
            }
            None => self.identity(leaf)[..3].to_vec(),
        }
    }

    /// The leaf, or for unit a function that forgets a num: three nodes more.
    fn three_more(&self, draw: &mut Draw, leaf: Node) -> Vec<Node> {
        if leaf == Node::Unit && draw.one_in(2) {
            let function = Node::Lambda(self.num_to_unit);
            return vec![Node::Application, function, Node::Unit, Node::Num(7)];
        }
        self.identity(leaf).to_vec()
    }

    /// A num exchanged with a setting: four nodes more.
    fn four_more(&self, leaf: Node) -> Vec<Node> {
        let exch = Node::Constant(Constant::Exch, self.exch);
        vec![
            Node::Application,
            Node::Application,
            exch,
            Node::Name(0),
            leaf,
        ]
    }
}

/// The places of units and nums (or nums alone) in these bays that are not too deep to grow.
fn leaves(draft: &Draft, bays: &Range<usize>, only_nums: bool) -> Vec<(usize, usize)> {
    let mut places = Vec::new();
    for bay in bays.clone() {
        let term = &draft.terms[bay];
        let standing = standings(term);
        for (at, (node, here)) in term.iter().zip(standing).enumerate() {
            let wanted = matches!(node, Node::Num(_)) || (*node == Node::Unit && !only_nums);
            if wanted && here.nesting + 2 <= limits::MAX_NESTING {
                places.push((bay, at));
            }
        }
    }
    places
}

/// Grows to that many nodes exactly; `None` when it cannot be met.
pub fn grow_to_nodes(draft: &mut Draft, draw: &mut Draw, wanted: usize) -> Option<()> {
    let all = 0..draft.terms.len();
    grow_bays_to_nodes(draft, draw, &all, wanted)
}

/// The same of one bay's term.
pub fn grow_bay_to_nodes(
    draft: &mut Draft,
    draw: &mut Draw,
    bay: usize,
    wanted: usize,
) -> Option<()> {
    grow_bays_to_nodes(draft, draw, &(bay..bay + 1), wanted)
}

fn grow_bays_to_nodes(
    draft: &mut Draft,
    draw: &mut Draw,
    bays: &Range<usize>,
    wanted: usize,
) -> Option<()> {
    let steps = Steps::new(draft)?;
    let nodes: usize = draft.terms[bays.clone()].iter().map(Vec::len).sum();
    let missing = wanted.checked_sub(nodes)?;
    let fours = missing % 3;
    let threes = missing.checked_sub(4 * fours)? / 3;
    for grown in 0..threes + fours {
        let by_four = grown >= threes;
        let places = leaves(draft, bays, by_four);
        if places.is_empty() {
            return None;
        }
        let (bay, at) = draw.pick(&places);
        let leaf = draft.terms[bay][at];
        let more = if by_four {
            steps.four_more(leaf)
        } else {
            steps.three_more(draw, leaf)
        };
        draft.terms[bay].splice(at..=at, more);
    }
    Some(())
}

/// Some num of that bay's term becomes what a setting held, into which the num goes.
pub fn exchange_a_num(draft: &mut Draft, draw: &mut Draw, bay: usize) -> Option<()> {
    let steps = Steps::new(draft)?;
    let places = leaves(draft, &(bay..bay + 1), true);
    if places.is_empty() {
        return None;
    }
    let (_, at) = draw.pick(&places);
    let more = steps.four_more(draft.terms[bay][at]);
    draft.terms[bay].splice(at..=at, more);
    Some(())
}

/// Nests identities and cases until the deepest node has that nesting.
pub fn grow_to_nesting(draft: &mut Draft, draw: &mut Draw, wanted: usize) -> Option<()> {
    let steps = Steps::new(draft)?;
    let places = leaves(draft, &(0..draft.terms.len()), false);
    if places.is_empty() {
        return None;
    }
    let (bay, at) = draw.pick(&places);
    let leaf = draft.terms[bay][at];
    let nesting = standings(&draft.terms[bay])[at].nesting;
    let times = wanted.checked_sub(nesting + 1)?;
    let mut nested = vec![leaf];
    for _ in 0..times {
        let mut around = steps.around(draw, leaf);
        around.append(&mut nested);
        nested = around;
    }
    draft.terms[bay].splice(at..=at, nested);
    Some(())
}
