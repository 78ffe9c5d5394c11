//! Every constant, pair and front at every type of a table that is full of instances of Fig. 8 and of
//! types that differ from one in one place.

use crate::draw::Draw;
use crate::editions::{FIRST, SECOND, THIRD};
use crate::format::Recipe;
use crate::generate::mutants::entries::near_type;
use crate::generate::tables::GrowingTable;
use crate::limits;
use crate::nodes::Node;
use crate::table::UNIT_ENTRY;
use crate::types::{Constant, Multiplicity};

const CONSTANTS: [Constant; 4] = [
    Constant::Cell,
    Constant::Exch,
    Constant::Thread,
    Constant::Handle,
];

/// An instance of the constant's type, its conditions on multiplicities left aside.
fn instance(draw: &mut Draw, table: &mut GrowingTable, constant: Constant) -> Option<u8> {
    let alpha = table.any(draw);
    let result = if draw.one_in(2) {
        UNIT_ENTRY
    } else {
        table.any(draw)
    };
    let kappa = |draw: &mut Draw| draw.pick(&[Multiplicity::Once, Multiplicity::Many]);
    match constant {
        Constant::Cell => {
            let cell = table.cell(alpha)?;
            table.function(kappa(draw), alpha, cell)
        }
        Constant::Exch => {
            let cell = table.cell(alpha)?;
            let rest = table.function(kappa(draw), alpha, alpha)?;
            table.function(kappa(draw), cell, rest)
        }
        Constant::Thread => {
            let body = table.function(kappa(draw), alpha, alpha)?;
            table.function(kappa(draw), body, alpha)
        }
        Constant::Handle => {
            let handle = table.function(Multiplicity::Once, alpha, UNIT_ENTRY)?;
            let rest = table.function(kappa(draw), handle, result)?;
            let body = table.function(kappa(draw), alpha, rest)?;
            table.function(kappa(draw), body, result)
        }
    }
}

/// A table of 256 entries: instances of one constant, and types near them.
fn table_of_instances(draw: &mut Draw) -> Recipe {
    let edition = draw.pick(&[FIRST, SECOND, THIRD]);
    let mut table = GrowingTable::new(edition, *limits::ENTRIES.end());
    table.fill(draw, 8);
    let constant = draw.pick(&CONSTANTS);
    let instances: Vec<u8> = (0..4)
        .filter_map(|_| instance(draw, &mut table, constant))
        .collect();
    let mut recipe = Recipe {
        edition: edition.number,
        entries: table.into_entries(),
        starts: edition.zeros(1),
        terms: Vec::new(),
    };
    while recipe.entries.len() + 4 < *limits::ENTRIES.end() {
        let near = draw.pick(&instances);
        let levels = draw.below(4);
        near_type(&mut recipe, draw, near, levels);
    }
    recipe
}

/// The files of one bay, each a constant, a pair or a front at one type of the table, and of one
/// more.
pub fn constants_at_every_type(draw: &mut Draw) -> Vec<Vec<u8>> {
    let mut recipe = table_of_instances(draw);
    let has_compounds = recipe.edition != FIRST.number;
    let mut files = Vec::new();
    for number in 0..=recipe.entries.len() {
        let number = number as u8;
        let constants = CONSTANTS.map(|constant| vec![Node::Constant(constant, number)]);
        let compounds = [Node::Pair(number), Node::Front(number)];
        let compounds = compounds.map(|node| vec![node, Node::Num(1), Node::Num(2)]);
        let compounds = compounds.into_iter().filter(|_| has_compounds);
        for term in constants.into_iter().chain(compounds) {
            recipe.terms = vec![term];
            files.push(recipe.write());
        }
    }
    files
}
