//! Recipes for the separate profile (document 02, T-09): bays that name only their own setting, that name
//! another's somewhere in their term, or that start at their share or just above it.

use crate::draw::Draw;
use crate::format::Recipe;
use crate::generate::growth::{exchange_a_num, grow_bay_to_nodes};
use crate::generate::recipes::{drafted, Draft};
use crate::generate::{bays, houses, mutants};
use crate::limits::{MAX_BAYS, MAX_RECIPE_NODES};
use crate::nodes::Node;
use crate::profile::share;

/// The fewest bays of which one can start above its share: a recipe has at most 1,024 nodes.
pub const FEWEST_ABOVE: usize = 5;

/// A file: accepted by this profile's loader, refused 20 or 21 or both, or with another fault as well.
pub fn file(draw: &mut Draw) -> Vec<u8> {
    match draw.below(12) {
        0..=3 => recipe(draw).write(),
        4..=6 => naming_another(draw).write(),
        7..=9 => about_the_share(draw).write(),
        10 => {
            let mut both = about_the_share(draw);
            name_another(&mut both, draw);
            both.write()
        }
        _ => mutants::of_recipe(draw, naming_another),
    }
}

/// A recipe whose bays name only their own setting; accepted, but for a few houses.
pub fn recipe(draw: &mut Draw) -> Recipe {
    let mut recipe = match draw.below(3) {
        0 => bays::recipe(draw),
        1 => houses::house(draw),
        _ => some_draft(draw).finish(),
    };
    name_own(&mut recipe);
    recipe
}

/// A draft of some bays, with more nums exchanged with a setting.
fn some_draft(draw: &mut Draw) -> Draft {
    let bays = match draw.below(4) {
        0 => draw.between(5, MAX_BAYS),
        _ => draw.between(1, 4),
    };
    let fuel = draw.between(2, 12);
    let mut draft = drafted(draw, bays, fuel);
    for _ in 0..draw.below(4) {
        let bay = draw.below(bays);
        exchange_a_num(&mut draft, draw, bay);
    }
    draft
}

/// Every name in a bay's term becomes that bay's: its type is the same.
pub fn name_own(recipe: &mut Recipe) {
    for (bay, term) in recipe.terms.iter_mut().enumerate() {
        for node in term {
            if let Node::Name(k) = node {
                *k = bay as u8;
            }
        }
    }
}

/// A recipe in which a bay names another's setting, if it has two bays.
fn naming_another(draw: &mut Draw) -> Recipe {
    let mut recipe = recipe(draw);
    name_another(&mut recipe, draw);
    recipe
}

/// One name becomes another bay's; a bay becomes one where there is none.
fn name_another(recipe: &mut Recipe, draw: &mut Draw) {
    let bays = recipe.terms.len();
    if bays < 2 {
        return;
    }
    let another = |draw: &mut Draw, bay: usize| ((bay + draw.between(1, bays - 1)) % bays) as u8;
    let mut names = Vec::new();
    for (bay, term) in recipe.terms.iter().enumerate() {
        let here = term.iter().enumerate();
        let here = here.filter(|(_, node)| matches!(node, Node::Name(_)));
        names.extend(here.map(|(at, _)| (bay, at)));
    }
    if names.is_empty() {
        let bay = draw.below(bays);
        recipe.terms[bay] = vec![Node::Name(another(draw, bay))];
    } else {
        let (bay, at) = draw.pick(&names);
        recipe.terms[bay][at] = Node::Name(another(draw, bay));
    }
}

/// A recipe in which a bay, or two, start with as many nodes as their share, or one or two more or less.
fn about_the_share(draw: &mut Draw) -> Recipe {
    let bays = draw.between(FEWEST_ABOVE, MAX_BAYS);
    let fuel = draw.between(1, 4);
    let mut draft = drafted(draw, bays, fuel);
    let first = draw.below(bays);
    grow_about_the_share(&mut draft, draw, first);
    let second = draw.below(bays);
    if draft.nodes() + share(bays).nodes < MAX_RECIPE_NODES && draw.one_in(2) {
        grow_about_the_share(&mut draft, draw, second);
    }
    let mut recipe = draft.finish();
    name_own(&mut recipe);
    recipe
}

/// The node of the setting counts too.
fn grow_about_the_share(draft: &mut Draft, draw: &mut Draw, bay: usize) {
    let share = share(draft.terms.len()).nodes;
    let wanted = share - 1 + draw.pick(&[0, 0, 1, 1, 2]) - draw.pick(&[0, 0, 0, 1]);
    if grow_bay_to_nodes(draft, draw, bay, wanted).is_none() {
        draft.terms[bay] = vec![Node::Num(7)];
        grow_bay_to_nodes(draft, draw, bay, wanted);
    }
}
