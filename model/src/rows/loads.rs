//! Rows of a load: accepted recipes with their starting images, every refusal, and short buffers; among
//! the images some with pairs and lists, and some with starting nums.

use crate::answers::{Implementation, LoadedAnswer, Model};
use crate::causes;
use crate::draw::Draw;
use crate::generate::{images, mutants, recipes, starts};
use crate::rows::quota::fill;
use crate::rows::{antt, compounds, Written, FILLER};
use crate::verdict::read_recipe;
use std::collections::BTreeMap;

/// No longer file is taken.
const LONGEST: usize = 100;
/// The most bays of a row.
const BAYS: u32 = 4;

/// A recipe and the length of the out buffer.
type Drawn = (Vec<u8>, usize);
/// Refusal, number of bays, and what is loaded.
type Class = (u32, u32, Sort);

/// What is loaded.
#[derive(Debug, Clone, Copy, PartialEq, Eq, PartialOrd, Ord)]
enum Sort {
    /// Nothing, or none of the following.
    Plain,
    /// A pair, a front or a case.
    Compound,
    /// A starting num other than 0.
    Starting,
}

/// A row: a recipe and the length of the out buffer; what load answers, and the image.
pub struct LoadRow {
    pub file: Vec<u8>,
    pub room: usize,
    pub answer: LoadedAnswer,
    pub image: Vec<u8>,
}

fn wanted() -> BTreeMap<Class, usize> {
    let mut wanted = BTreeMap::new();
    for bays in 1..=BAYS {
        wanted.insert((0, bays, Sort::Plain), 3);
        wanted.insert((0, bays, Sort::Compound), 2);
        wanted.insert((0, bays, Sort::Starting), 4);
    }
    for refusal in causes::FILE_LENGTH..=causes::BAY_ONCE {
        wanted.insert((refusal, 0, Sort::Plain), 1);
    }
    wanted.remove(&(causes::TERM_SIZE, 0, Sort::Plain));
    wanted.insert((causes::STARTING, 0, Sort::Plain), 3);
    wanted.insert((causes::BUFFER, 0, Sort::Plain), 8);
    wanted
}

fn drawn(draw: &mut Draw) -> Option<Drawn> {
    let file = match draw.below(4) {
        0 => mutants::of_recipe(draw, recipes::small),
        1 => mutants::of_bytes(draw, recipes::small),
        2 => starts::file(draw),
        _ => recipes::small(draw).write(),
    };
    (file.len() <= LONGEST).then(|| (file, images::out_length(draw)))
}

fn row((file, room): Drawn) -> LoadRow {
    let mut out = vec![FILLER; room];
    let answer = Model.load(&file, &mut out).unwrap_or_default();
    out.truncate(answer.length as usize);
    LoadRow {
        file,
        room,
        answer,
        image: out,
    }
}

fn class(drawn: &Drawn) -> Class {
    let row = row(drawn.clone());
    (row.answer.refusal, row.answer.bays, sort(&row))
}

fn sort(row: &LoadRow) -> Sort {
    let nums = read_recipe(&row.file).ok().and_then(|recipe| recipe.starts);
    let started = nums.unwrap_or_default().iter().any(|num| *num != 0);
    match row.answer.refusal {
        0 if started => Sort::Starting,
        0 if compounds::stands_in(&row.file) => Sort::Compound,
        _ => Sort::Plain,
    }
}

pub fn rows(draw: &mut Draw) -> Vec<LoadRow> {
    let found = fill(&wanted(), || drawn(draw), class);
    found.into_iter().map(row).collect()
}

pub fn files(draw: &mut Draw) -> Vec<Written> {
    antt::LOADS.files(&rows(draw), antt::load_row)
}
