//! `recipe compare`: two shared libraries, given the same recipes and the same turns.

pub mod crash;
pub mod pair;
pub mod report;
pub mod words;

use crate::draw::Draw;
use crate::examples;
use crate::generate::{houses, images, recipes, separate, shares};
use crate::profile::{Profile, PROFILES};
use crate::tool::arguments::Form;
use crate::tool::problem::{message, Outcome};
use crate::tool::progress::Progress;
use crate::tool::shared_library::SharedLibrary;
use pair::{Difference, Pair};
use std::ffi::OsString;
use std::io::Write;

const FORM: Form = Form {
    command: "compare",
    files: (2, 2),
    with_value: &["--seed", "--count", "--limit"],
    without_value: &["--progress"],
};

const SEED: u64 = 2_006;
const COUNT: u64 = 20_000;
/// The most seconds of one call.
const LIMIT: u64 = 10;
/// The most turns of one recipe, stepped one by one.
const TURNS: usize = 40;
/// After how many recipes the runners get a house.
const HOUSE_EVERY: u64 = 50;

pub fn command(words: &[OsString], out: &mut dyn Write) -> Outcome {
    let given = FORM.read(words)?;
    let seed = FORM.value(&given, "--seed")?.unwrap_or(SEED);
    let count = FORM.value(&given, "--count")?.unwrap_or(COUNT);
    let limit = FORM.value(&given, "--limit")?.unwrap_or(LIMIT);
    let (a, b) = (&given.files[0], &given.files[1]);
    let mut pair = Pair::new(SharedLibrary::open(a)?, SharedLibrary::open(b)?);
    writeln!(
        out,
        "A: {}\nB: {}\nseed {seed}, {count} recipes",
        a.display(),
        b.display()
    )?;
    for missing in pair.missing() {
        writeln!(out, "{missing}: not compared")?;
    }
    out.flush()?;
    crash::watch([a, b], limit);
    let mut progress = Progress::new(given.has("--progress"));
    let result = compare(&mut pair, seed, count, &mut progress);
    progress.end(&format!("{} recipes", pair.counts.recipes()));
    writeln!(out, "{}", pair.counts)?;
    match result {
        Ok(()) => {
            writeln!(out, "same")?;
            Ok(())
        }
        Err(difference) => {
            write!(out, "{}", report::in_full(&difference))?;
            Err(message("the libraries differ"))
        }
    }
}

/// The examples, then that many recipes: checked, loaded, the accepted ones stepped, all handed to the
/// runners; an image from outside for every second recipe; and houses for the runners. The separate profile
/// gets the same, and for every second recipe one of its own and an image about the shares.
fn compare(
    pair: &mut Pair,
    seed: u64,
    count: u64,
    progress: &mut Progress,
) -> Result<(), Box<Difference>> {
    let mut draw = Draw::new(seed);
    let mut for_runner = Draw::new(!seed);
    let mut for_separate = Draw::new(seed.rotate_left(32));
    let examples: Vec<Vec<u8>> = examples::all().iter().map(|e| e.file()).collect();
    for recipe in &examples {
        pair.check(recipe)?;
        compare_recipe(Profile::Common, pair, &mut draw, recipe)?;
        compare_recipe(Profile::Separate, pair, &mut for_separate, recipe)?;
        compare_run(pair, &mut for_runner, recipe)?;
    }
    for number in 0..count {
        let recipe = recipes::file(&mut draw);
        pair.check(&recipe)?;
        compare_recipe(Profile::Common, pair, &mut draw, &recipe)?;
        compare_recipe(Profile::Separate, pair, &mut for_separate, &recipe)?;
        compare_run(pair, &mut for_runner, &recipe)?;
        if number % 2 == 0 {
            compare_image(pair, &mut draw, &mut for_separate)?;
        } else {
            compare_separate(pair, &mut for_separate)?;
        }
        if number % HOUSE_EVERY == 0 {
            let house = houses::house(&mut for_runner).write();
            compare_run(pair, &mut for_runner, &house)?;
        }
        progress.say(|| format!("recipe {number} of {count}"));
    }
    Ok(())
}

fn compare_recipe(
    profile: Profile,
    pair: &mut Pair,
    draw: &mut Draw,
    recipe: &[u8],
) -> Result<(), Box<Difference>> {
    let room = images::out_length(draw);
    let mut image = match pair.load(profile, recipe, room)? {
        Some(image) => image,
        None => return Ok(()),
    };
    let mut thread = images::thread_number(draw, &image);
    for turn in 1..=draw.between(1, TURNS) {
        let room = images::out_length(draw);
        let of = (profile, Some((recipe, turn)));
        let after = pair.step(of, &image, thread, room)?;
        let moved = after.is_some();
        image = after.unwrap_or(image);
        if !moved && draw.one_in(6) {
            break;
        }
        if !moved || draw.one_in(3) {
            thread = images::thread_number(draw, &image);
        }
    }
    Ok(())
}

fn compare_run(pair: &mut Pair, draw: &mut Draw, recipe: &[u8]) -> Result<(), Box<Difference>> {
    let turns = houses::turns(draw);
    let rooms = [images::out_length(draw), images::out_length(draw)];
    pair.run(recipe, turns, rooms)
}

fn compare_image(
    pair: &mut Pair,
    draw: &mut Draw,
    for_separate: &mut Draw,
) -> Result<(), Box<Difference>> {
    let image = images::image(draw);
    for _ in 0..draw.between(1, 4) {
        let thread = images::thread_number(draw, &image);
        let room = images::out_length(draw);
        pair.step((Profile::Common, None), &image, thread, room)?;
        let room = images::out_length(for_separate);
        pair.step((Profile::Separate, None), &image, thread, room)?;
    }
    Ok(())
}

/// A recipe for the separate profile, and an image about the shares.
fn compare_separate(pair: &mut Pair, draw: &mut Draw) -> Result<(), Box<Difference>> {
    let recipe = separate::file(draw);
    compare_recipe(Profile::Separate, pair, draw, &recipe)?;
    let (image, thread) = shares::image(draw);
    for profile in PROFILES {
        let room = images::out_length(draw);
        pair.step((profile, None), &image, thread, room)?;
    }
    Ok(())
}
