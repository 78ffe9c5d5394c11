//! Rows of a check: files of one to four small bays with every verdict, some with different causes
//! in two bays, some as deep as terms may be or deeper, some that are about pairs and lists, some about
//! starting nums.

use crate::answers::{Implementation, Model, VerdictAnswer};
use crate::causes;
use crate::draw::Draw;
use crate::editions;
use crate::format::{self, edition_of, starting_part, write_parts, Parts};
use crate::generate::{mutants, recipes, starts};
use crate::limits;
use crate::nodes::Node;
use crate::rows::quota::fill;
use crate::rows::{antt, compounds, Written};
use crate::table::{entry, FIRST_ENTRIES, MANY, ONCE};
use crate::tags;
use crate::types::Shape;
use std::collections::{BTreeMap, BTreeSet};

/// No longer file is taken, but for the deep ones.
const LONGEST: usize = 110;
/// The most bays of a row.
const BAYS: usize = 4;

/// The causes that small terms show.
const OF_ONE_BAY: [u32; 6] = [
    causes::NO_TERM,
    causes::SCOPE,
    causes::ANNOTATION,
    causes::TYPE,
    causes::LINEARITY,
    causes::BAY_ONCE,
];

/// How many rows there are of each verdict that is about pairs, lists and cases.
const OF_COMPOUNDS: [(u32, usize); 7] = [
    (0, 14),
    (causes::TYPE_ENTRY, 8),
    (causes::SCOPE, 5),
    (causes::ANNOTATION, 6),
    (causes::TYPE, 8),
    (causes::LINEARITY, 7),
    (causes::BAY_ONCE, 4),
];

/// How a file was drawn.
#[derive(Debug, Clone, Copy, PartialEq, Eq, PartialOrd, Ord)]
enum Sort {
    Small,
    /// The second lowest cause that fits a bay by itself.
    TwoCauses(u32),
    Deep,
    /// Of edition 2, with a pair, a front or a case in it; refused by one of them, or by a type entry
    /// of their kinds.
    Compound,
    /// Of edition 1, with what only edition 2 has.
    Later,
    /// Of edition 3, with a starting num other than 0, or with a starting part of another length.
    Starting,
}

#[derive(Debug, Clone, PartialEq, Eq, PartialOrd, Ord)]
struct Drawn {
    sort: Sort,
    file: Vec<u8>,
}

/// Sort, verdict and number of bays, 0 where the file does not say or it does not matter.
type Class = (Sort, u32, usize);

/// A row: a file, and what check answers.
pub struct CheckRow {
    pub file: Vec<u8>,
    pub answer: VerdictAnswer,
}

fn wanted() -> BTreeMap<Class, usize> {
    let mut wanted = BTreeMap::new();
    wanted.insert((Sort::Small, causes::FILE_LENGTH, 0), 8);
    wanted.insert((Sort::Small, causes::OPENING, 0), 8);
    for bays in 1..=BAYS {
        wanted.insert((Sort::Small, 0, bays), 4);
        wanted.insert((Sort::Small, causes::LAYOUT, bays), 2);
        for refusal in causes::TYPE_ENTRY..=causes::BAY_ONCE {
            wanted.insert((Sort::Small, refusal, bays), 2);
        }
        wanted.remove(&(Sort::Small, causes::TERM_SIZE, bays));
        wanted.insert((Sort::Starting, 0, bays), 3);
        wanted.insert((Sort::Starting, causes::STARTING, bays), 3);
        for refusal in [causes::NO_TERM, causes::SCOPE, causes::BAY_ONCE] {
            wanted.insert((Sort::Starting, refusal, bays), 1);
        }
    }
    for (place, lowest) in OF_ONE_BAY.iter().enumerate() {
        for second in &OF_ONE_BAY[place + 1..] {
            wanted.insert((Sort::TwoCauses(*second), *lowest, 2), 2);
        }
    }
    for (verdict, count) in OF_COMPOUNDS {
        wanted.insert((Sort::Compound, verdict, 0), count);
    }
    wanted.insert((Sort::Later, causes::TYPE_ENTRY, 0), 3);
    wanted.insert((Sort::Later, causes::NO_TERM, 0), 4);
    wanted.insert((Sort::Deep, causes::TERM_SIZE, 1), 4);
    wanted.insert((Sort::Deep, causes::TERM_SIZE, 2), 4);
    wanted.insert((Sort::Deep, causes::SCOPE, 1), 2);
    wanted.insert((Sort::Deep, causes::TYPE, 1), 2);
    wanted
}

fn class(drawn: &Drawn) -> Class {
    let refusal = Model.check(&drawn.file).refusal;
    let opened = ![causes::FILE_LENGTH, causes::OPENING].contains(&refusal)
        && ![Sort::Compound, Sort::Later].contains(&drawn.sort);
    let edition = opened.then(|| edition_of(&drawn.file)).flatten();
    let bays = edition.map_or(0, |edition| usize::from(drawn.file[3]) - edition.terms());
    (drawn.sort, refusal, bays)
}

fn drawn(draw: &mut Draw) -> Option<Drawn> {
    let file = match draw.below(12) {
        0 | 1 => recipes::small(draw).write(),
        10 | 11 => starts::file(draw),
        2..=6 => mutants::of_recipe(draw, recipes::small),
        7 | 8 => mutants::of_bytes(draw, recipes::small),
        _ => {
            let file = deep(draw);
            let sort = Sort::Deep;
            return Some(Drawn { sort, file });
        }
    };
    let sort = sort_of(&file);
    (file.len() <= LONGEST).then_some(Drawn { sort, file })
}

fn sort_of(file: &[u8]) -> Sort {
    let refusal = Model.check(file).refusal;
    let is_about = match refusal {
        0 => compounds::stands_in(file),
        _ => compounds::refuses(file),
    };
    match second_cause(file) {
        _ if is_about_starting(file, refusal) => Sort::Starting,
        Some(second) => Sort::TwoCauses(second),
        None if is_later(file, refusal) => Sort::Later,
        None if is_about => Sort::Compound,
        None => Sort::Small,
    }
}

/// Whether a file of edition 1 is refused and would not be, or by another cause, in edition 2.
fn is_later(file: &[u8], refusal: u32) -> bool {
    let by_edition = [causes::TYPE_ENTRY, causes::NO_TERM].contains(&refusal);
    if !by_edition || file[2] != editions::FIRST.number {
        return false;
    }
    let mut second = file.to_vec();
    second[2] = editions::SECOND.number;
    Model.check(&second).refusal != refusal
}

/// Whether the starting part of a file whose layout is kept has another length, or, where the file is
/// accepted, a num other than 0.
fn is_about_starting(file: &[u8], refusal: u32) -> bool {
    let laid_out = refusal == 0 || refusal > causes::LAYOUT;
    let edition = laid_out.then(|| edition_of(file)).flatten();
    let parts = edition.and_then(|edition| format::parts(edition, file));
    match parts.and_then(|parts| parts.starting_nums()) {
        Some(nums) => refusal == 0 && nums.iter().any(|num| *num != 0),
        None => laid_out,
    }
}

/// The second lowest cause that fits a bay taken by itself, every other bay being unit.
fn second_cause(file: &[u8]) -> Option<u32> {
    if Model.check(file).refusal < causes::NO_TERM {
        return None;
    }
    let Parts {
        table,
        starting,
        terms,
    } = format::parts(edition_of(file)?, file)?;
    let alone = |bay: usize| {
        let mut parts = vec![table.to_vec()];
        parts.extend(starting.map(<[u8]>::to_vec));
        parts.extend(terms.iter().map(|_| vec![tags::UNIT]));
        let at = parts.len() - terms.len() + bay;
        parts[at] = terms[bay].to_vec();
        Model.check(&write_parts(file[2], &parts)).refusal
    };
    let found: BTreeSet<u32> = (0..terms.len()).map(alone).collect();
    found.into_iter().filter(|refusal| *refusal != 0).nth(1)
}

/// One or two bays, the first with a term about as deep as a term may be.
fn deep(draw: &mut Draw) -> Vec<u8> {
    let (p, q) = (draw.below(3) as u8, draw.below(3) as u8);
    let function = entry(draw.pick(&[ONCE, MANY]), p, q);
    let entries = FIRST_ENTRIES.iter().chain([&function]);
    let table = entries.flat_map(|e| e.bytes()).collect();
    let nesting = limits::MAX_NESTING + draw.below(3);
    let edition = draw.pick(&editions::ALL);
    let mut term = Vec::new();
    for _ in 1..nesting {
        term.extend(match draw.below(4) {
            0 => [tags::APPLICATION, tags::UNIT],
            1 if edition.has_node(Node::Case(Shape::Pair)) => [tags::CASE_PAIR, tags::UNIT],
            _ => [tags::LAMBDA, FIRST_ENTRIES.len() as u8],
        });
    }
    term.extend([tags::VARIABLE, draw.below(nesting) as u8]);
    let mut parts = vec![table, term];
    if draw.one_in(2) {
        parts.push(vec![tags::UNIT]);
    }
    let bays = parts.len() - 1;
    if edition.starting {
        parts.insert(1, starting_part(&starts::nums(draw, edition, bays)));
    }
    write_parts(edition.number, &parts)
}

/// The rows, in the order of their classes.
pub fn rows(draw: &mut Draw) -> Vec<CheckRow> {
    let found = fill(&wanted(), || drawn(draw), class);
    let row = |drawn: Drawn| CheckRow {
        answer: Model.check(&drawn.file),
        file: drawn.file,
    };
    found.into_iter().map(row).collect()
}

pub fn files(draw: &mut Draw) -> Vec<Written> {
    antt::CHECKS.files(&rows(draw), antt::check_row)
}
