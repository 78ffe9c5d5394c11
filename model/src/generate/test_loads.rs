//! Inputs of the test load: short ones, cut ones and long ones; examples, houses, recipes with starting
//! nums and drawn recipes, each with a seed and a number of draws.

use crate::draw::Draw;
use crate::editions::{FIRST, SECOND, STARTING_PART, THIRD};
use crate::examples;
use crate::format::{write_parts, Recipe};
use crate::generate::{houses, recipes};
use crate::houses::{all_names, crowd, fullest, house, nine_sorts, Bay, Makes};
use crate::limits::{MAX_DRAWS, MAX_FILE};
use crate::nodes::Node;
use crate::table::{entry, ONCE, UNIT_ENTRY};
use crate::test_load::Input;

/// How many recipes and houses are drawn.
const RECIPES: usize = 200;
const HOUSES: usize = 40;

/// All of them, the same each time.
pub fn inputs() -> Vec<Vec<u8>> {
    [
        short_and_cut(),
        long(),
        of_examples(),
        with_many_draws(),
        of_houses(),
        with_starting_nums(),
        drawn(),
    ]
    .concat()
}

/// What the program's held run is given: 10,000 draws over nine bays.
pub fn held() -> Vec<u8> {
    input(1, MAX_DRAWS, &nine_sorts().write())
}

fn input(seed: u32, count: u16, recipe: &[u8]) -> Vec<u8> {
    let input = Input {
        seed,
        count,
        recipe,
    };
    input.bytes()
}

/// Every length up to that of a whole input; its first six bytes are not 0.
fn short_and_cut() -> Vec<Vec<u8>> {
    let whole = input(0x0403_0201, 0x0203, &examples::file_of("one-vent"));
    (0..=whole.len())
        .map(|length| whole[..length].to_vec())
        .collect()
}

/// Recipes of 8,192 bytes, one more, 9,000, and more than a pipe holds: all bytes 0, a recipe with bytes
/// over, and one whose layout is kept.
fn long() -> Vec<Vec<u8>> {
    let accepted = examples::file_of("one-vent");
    let of_length = |length: usize| {
        let mut over = accepted.clone();
        over.resize(length, 0);
        let table = vec![0, 0, 0, 1, 0, 0, 2, 1, 0];
        let term = vec![3; length - 12 - table.len()];
        [
            vec![0; length],
            over,
            write_parts(FIRST.number, &[table, term]),
        ]
    };
    let lengths = [MAX_FILE, MAX_FILE + 1, 9_000, 70_000].into_iter();
    with_each(lengths.flat_map(of_length), &[(7, 5)])
}

/// Each example with seeds and numbers of draws; zero is refused whatever the number.
fn of_examples() -> Vec<Vec<u8>> {
    let files = examples::all().into_iter().map(|example| example.file());
    let told = [(0, 0), (0, 3), (1, 0), (1, 1), (7, 40), (u32::MAX, 120)];
    with_each(files, &told)
}

/// Up to 10,000 draws, and above.
fn with_many_draws() -> Vec<Vec<u8>> {
    let files = ["nine-bays", "recursion", "waiting-for-ever"].map(examples::file_of);
    let counts = [MAX_DRAWS - 1, MAX_DRAWS, MAX_DRAWS + 1, u16::MAX];
    with_each(files, &counts.map(|count| (0x8000_0001, count)))
}

/// Each recipe with each seed and number of draws.
fn with_each(recipes: impl IntoIterator<Item = Vec<u8>>, told: &[(u32, u16)]) -> Vec<Vec<u8>> {
    let mut inputs = Vec::new();
    for recipe in recipes {
        inputs.extend(
            told.iter()
                .map(|(seed, count)| input(*seed, *count, &recipe)),
        );
    }
    inputs
}

/// Houses that come to lack names or nodes, that wait, and that fill the image.
fn of_houses() -> Vec<Vec<u8>> {
    let loops = |makes| [Bay::Loops(makes), Bay::Loops(Makes::Nothing), Bay::Waits];
    let house = |bays: &[Bay]| house(SECOND, bays);
    [
        (house(&loops(Makes::Cells)), 4_000),
        (house(&loops(Makes::Threads)), 2_000),
        (house(&loops(Makes::Handles)), 2_000),
        (house(&[Bay::Doubles(11), Bay::Steps(9)]), 60),
        (house(&[Bay::Pairs(11), Bay::Waits]), 60),
        (house(&[Bay::Holds(8, 25), Bay::Doubles(9)]), 150),
        (crowd(), 2_500),
        (all_names(), 2_500),
        (fullest(), 300),
    ]
    .into_iter()
    .map(|(recipe, count)| input(2_006, count, &recipe.write()))
    .collect()
}

/// A house of edition 3: with its nums, with starting parts of other lengths, and with a bay more whose
/// type is usable once. "tried after 11 and before 18": zero among the seeds.
fn with_starting_nums() -> Vec<Vec<u8>> {
    let mut house = house(THIRD, &[Bay::Steps(4), Bay::Waits, Bay::Doubles(3)]);
    house.starts = vec![250, u16::MAX, 256];
    let of_length = |recipe: &Recipe, length: usize| {
        let mut parts = recipe.parts();
        parts[STARTING_PART].resize(length, 1);
        write_parts(recipe.edition, &parts)
    };
    let mut once = house.clone();
    let function = once.entries.len() as u8;
    once.entries.push(entry(ONCE, UNIT_ENTRY, UNIT_ENTRY));
    once.starts.push(1);
    once.terms
        .push(vec![Node::Lambda(function), Node::Variable(0)]);
    let lengths = [6, 5, 7, 4, 8, 3, 1, 0, 2_000];
    let mut recipes = lengths.map(|length| of_length(&house, length)).to_vec();
    recipes.extend([8, 6].map(|length| of_length(&once, length)));
    with_each(recipes, &[(0, 0), (0, 9), (1, 0), (2_006, 40)])
}

/// Drawn recipes, accepted and refused, and drawn houses.
fn drawn() -> Vec<Vec<u8>> {
    let mut draw = Draw::new(6);
    let mut inputs = Vec::new();
    for number in 0..RECIPES + HOUSES {
        let recipe = if number < RECIPES {
            recipes::file(&mut draw)
        } else {
            houses::house(&mut draw).write()
        };
        let count = draw.pick(&[0, 1, 8, 30, 100]);
        inputs.push(input(seed(&mut draw), count, &recipe));
    }
    inputs
}

/// So many drawn inputs: two recipes to a house, up to 600 draws or a number at the limit; now and then
/// one is cut.
pub fn many(seed: u64, inputs: usize) -> impl Iterator<Item = Vec<u8>> {
    let mut draw = Draw::new(seed);
    let next = move |_| {
        let recipe = match draw.below(3) {
            0 => houses::house(&mut draw).write(),
            _ => recipes::file(&mut draw),
        };
        let count = match draw.below(12) {
            0 => draw.pick(&[0, MAX_DRAWS, MAX_DRAWS + 1, u16::MAX]),
            _ => draw.below(600) as u16,
        };
        let mut bytes = input(self::seed(&mut draw), count, &recipe);
        if draw.below(30) == 0 {
            bytes.truncate(draw.below(bytes.len()));
        }
        bytes
    };
    (0..inputs).map(next)
}

/// Any seed, now and then zero.
fn seed(draw: &mut Draw) -> u32 {
    match draw.below(12) {
        0 => 0,
        _ => (draw.number() >> 32) as u32,
    }
}
