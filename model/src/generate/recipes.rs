//! Well-typed recipes, small ones and ones at the limits; and the corpus of files to compare.

use crate::draw::Draw;
use crate::editions::{FIRST, SECOND, THIRD};
use crate::format::Recipe;
use crate::generate::bays;
use crate::generate::growth::{grow_to_nesting, grow_to_nodes};
use crate::generate::mutants;
use crate::generate::starts;
use crate::generate::tables::GrowingTable;
use crate::generate::terms::TermMaker;
use crate::limits;
use crate::nodes::Node;
use crate::table::UNIT_ENTRY;

/// A recipe in the making.
#[derive(Debug, Clone)]
pub struct Draft {
    pub table: GrowingTable,
    pub starts: Vec<u16>,
    pub terms: Vec<Vec<Node>>,
}

impl Draft {
    pub fn nodes(&self) -> usize {
        self.terms.iter().map(Vec::len).sum()
    }

    pub fn finish(self) -> Recipe {
        Recipe {
            edition: self.table.edition().number,
            entries: self.table.into_entries(),
            starts: self.starts,
            terms: self.terms,
        }
    }
}

/// What is asked of a draft.
struct Wish {
    bays: usize,
    fuel: usize,
    deepest: usize,
    faults: Faults,
}

/// The rules that the terms of a draft may break.
#[derive(Clone, Copy, Default)]
struct Faults {
    /// The last bay may have a once type.
    once_bay: bool,
    /// Once-variables are treated like the others.
    careless: bool,
    /// Constants are used beyond Fig. 8's conditions on multiplicities.
    beyond: bool,
    /// Once-variables go to both components of a pair.
    both: bool,
}

impl Faults {
    fn any(draw: &mut Draw) -> Faults {
        Faults {
            once_bay: draw.one_in(2),
            careless: draw.one_in(4),
            beyond: draw.one_in(3),
            both: draw.one_in(4),
        }
    }
}

/// A recipe that is accepted, but for the rare one that grows past the limit of nodes.
pub fn well_typed(draw: &mut Draw) -> Recipe {
    draft(draw, Faults::default()).finish()
}

/// A recipe with once-variables treated like the others.
pub fn careless(draw: &mut Draw) -> Recipe {
    let faults = Faults {
        careless: true,
        ..Faults::default()
    };
    draft(draw, faults).finish()
}

/// A recipe with once-variables in both components of pairs.
pub fn in_both_components(draw: &mut Draw) -> Recipe {
    let faults = Faults {
        both: true,
        ..Faults::default()
    };
    draft(draw, faults).finish()
}

/// A recipe of several bays, each careless: faults in some bays and not in others.
pub fn several_careless_bays(draw: &mut Draw) -> Recipe {
    let wish = Wish {
        bays: draw.between(2, 5),
        fuel: draw.between(3, 20),
        deepest: 30,
        faults: Faults {
            careless: true,
            ..Faults::default()
        },
    };
    draft_as_wished(draw, &wish).finish()
}

/// A recipe of one to four small bays that may break any of the rules about once and many.
pub fn small(draw: &mut Draw) -> Recipe {
    let wish = Wish {
        bays: draw.between(1, 4),
        fuel: draw.between(1, 8),
        deepest: 10,
        faults: Faults::any(draw),
    };
    draft_as_wished(draw, &wish).finish()
}

/// A recipe that may break any of the rules about once and many.
pub fn with_faults(draw: &mut Draw) -> Recipe {
    let faults = Faults::any(draw);
    draft(draw, faults).finish()
}

/// A well-typed draft of so many bays, each term of about twice that fuel in nodes.
pub fn drafted(draw: &mut Draw, bays: usize, fuel: usize) -> Draft {
    let wish = Wish {
        bays,
        fuel,
        deepest: 30,
        faults: Faults::default(),
    };
    draft_as_wished(draw, &wish)
}

fn draft(draw: &mut Draw, faults: Faults) -> Draft {
    let bays = match draw.below(8) {
        0 => draw.between(1, limits::MAX_BAYS),
        1 => draw.between(2, 4),
        _ => 1,
    };
    let nodes = match draw.below(50) {
        0 => 900,
        1..=5 => draw.between(60, 300),
        _ => draw.between(1, 60),
    };
    let wish = Wish {
        bays,
        fuel: (nodes / (2 * bays)).max(1),
        deepest: draw.pick(&[10, 30, 60, 90]),
        faults,
    };
    draft_as_wished(draw, &wish)
}

fn draft_as_wished(draw: &mut Draw, wish: &Wish) -> Draft {
    let edition = draw.pick(&[FIRST, SECOND, SECOND, THIRD, THIRD]);
    let mut table = GrowingTable::new(edition, *limits::ENTRIES.end());
    let more = draw.pick(&[0, 2, 6, 12, 30]);
    table.fill(draw, 3 + more);
    let mut terms = Vec::new();
    for bay in 0..wish.bays {
        let once = wish.faults.once_bay && bay + 1 == wish.bays;
        terms.push(bay_term(draw, &mut table, wish, once));
    }
    let starts = starts::nums(draw, edition, wish.bays);
    Draft {
        table,
        starts,
        terms,
    }
}

/// A term for one bay; unit when no other is found.
fn bay_term(draw: &mut Draw, table: &mut GrowingTable, wish: &Wish, once: bool) -> Vec<Node> {
    for _ in 0..4 {
        let goal = match once {
            true if table.has_compounds() && draw.one_in(2) => table.any_compound(draw),
            true => Some(table.any(draw)),
            false => Some(table.any_many(draw)),
        };
        let goal = goal.unwrap_or(UNIT_ENTRY);
        let mut maker = TermMaker::new(draw, table, wish.bays);
        maker.fuel = wish.fuel;
        maker.deepest = wish.deepest;
        maker.careless = wish.faults.careless;
        maker.beyond = wish.faults.beyond;
        maker.both = wish.faults.both;
        if let Some(term) = maker.make(goal) {
            return term;
        }
    }
    vec![Node::Unit]
}

/// A recipe at one of the limits or just past it: nodes, nesting, entries, bays.
pub fn at_a_limit(draw: &mut Draw) -> Recipe {
    let past = usize::from(draw.one_in(3));
    let wish = Wish {
        bays: draw.pick(&[1, 3, 16, 16]),
        fuel: draw.between(1, 40),
        deepest: 20,
        faults: Faults::default(),
    };
    let mut made = draft_as_wished(draw, &wish);
    if draw.one_in(2) {
        grow_to_nesting(&mut made, draw, limits::MAX_NESTING + past);
    }
    if draw.one_in(2) {
        grow_to_nodes(&mut made, draw, limits::MAX_RECIPE_NODES + past);
    }
    if draw.one_in(2) {
        let wanted = *limits::ENTRIES.end() - draw.below(2);
        made.table.fill(draw, wanted);
    }
    made.finish()
}

/// The largest accepted recipe that the generator knows: every limit met.
pub fn largest(draw: &mut Draw) -> Recipe {
    loop {
        let wish = Wish {
            bays: limits::MAX_BAYS,
            fuel: 20,
            deepest: 20,
            faults: Faults::default(),
        };
        let mut made = draft_as_wished(draw, &wish);
        let nested = grow_to_nesting(&mut made, draw, limits::MAX_NESTING);
        let grown = nested.and_then(|()| grow_to_nodes(&mut made, draw, limits::MAX_RECIPE_NODES));
        made.table.fill(draw, *limits::ENTRIES.end());
        if grown.is_some() && made.table.len() == *limits::ENTRIES.end() {
            return made.finish();
        }
    }
}

/// A file of the corpus: about half of them well-typed recipes, the others with a fault.
pub fn file(draw: &mut Draw) -> Vec<u8> {
    match draw.below(112) {
        0..=44 => well_typed(draw).write(),
        45 => at_a_limit(draw).write(),
        46..=51 => careless(draw).write(),
        52 | 53 => in_both_components(draw).write(),
        54..=61 => with_faults(draw).write(),
        62 => mutants::giant(draw),
        63 if draw.one_in(3) => mutants::of_recipe(draw, at_a_limit),
        63..=83 => mutants::of_recipe(draw, well_typed),
        84..=87 => mutants::of_recipe(draw, several_careless_bays),
        88..=99 => mutants::of_bytes(draw, well_typed),
        100..=105 => starts::file(draw),
        _ => bays::recipe(draw).write(),
    }
}
