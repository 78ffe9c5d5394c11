//! How fast the library, the plain implementation and the model are on the same inputs, in one run.

use model::answers::{Implementation, Model, Plain, RULE};
use model::config::{Component, Configuration};
use model::draw::Draw;
use model::editions::{Edition, FIRST, SECOND, THIRD};
use model::examples;
use model::expression::Expression;
use model::ffi::Library;
use model::format::write_parts;
use model::generate::{recipes, separate};
use model::image::write_image;
use model::limits;
use model::nodes::Node;
use model::profile::{share, Profile, PROFILES};
use model::timing::{fastest, opaque, Work};
use std::rc::Rc;
use std::time::Duration;

/// How often each work is measured, and how long at least.
const ROUNDS: usize = 15;
const LEAST: Duration = Duration::from_millis(20);

/// Inputs of one kind.
struct Corpus {
    name: &'static str,
    files: Vec<Vec<u8>>,
}

/// How many files a drawn corpus has.
const DRAWN: usize = 2_000;

/// Accepted recipes of an edition.
fn well_typed(draw: &mut Draw, edition: Edition) -> Vec<Vec<u8>> {
    let recipes = std::iter::repeat_with(|| recipes::well_typed(draw));
    let recipes = recipes.filter(|recipe| recipe.edition == edition.number);
    recipes.take(DRAWN).map(|recipe| recipe.write()).collect()
}

fn corpora() -> Vec<Corpus> {
    let mut draw = Draw::new(2_006);
    let case_a = examples::all().swap_remove(0).file();
    let corpus = |name, files| Corpus { name, files };
    vec![
        corpus("case A, 22 bytes", vec![case_a]),
        corpus(
            "well-typed recipes of edition 1",
            well_typed(&mut draw, FIRST),
        ),
        corpus(
            "well-typed recipes of edition 2",
            well_typed(&mut draw, SECOND),
        ),
        corpus(
            "well-typed recipes of edition 3",
            well_typed(&mut draw, THIRD),
        ),
        corpus(
            "the corpus of the comparison",
            (0..DRAWN).map(|_| recipes::file(&mut draw)).collect(),
        ),
        corpus(
            "largest accepted: 1,024 nodes, 256 entries, 16 bays",
            vec![recipes::largest(&mut draw).write()],
        ),
        corpus(
            "the same kind, each bay naming its own setting",
            vec![largest_apart(&mut draw)],
        ),
        corpus(
            "the corpus of the separate profile",
            (0..DRAWN).map(|_| separate::file(&mut draw)).collect(),
        ),
        corpus("8,192 bytes, 8,171 nodes, refused 6", vec![longest()]),
    ]
}

/// A recipe of the greatest size that the separate profile accepts too.
fn largest_apart(draw: &mut Draw) -> Vec<u8> {
    let mut recipe = recipes::largest(draw);
    separate::name_own(&mut recipe);
    recipe.write()
}

/// A file of 8,192 bytes that is one term of applications and units.
fn longest() -> Vec<u8> {
    let table = vec![0, 0, 0, 1, 0, 0, 2, 1, 0];
    let nodes = *limits::FILE_BYTES.end() - 12 - table.len();
    let term = [vec![2; nodes / 2], vec![3; nodes - nodes / 2]].concat();
    write_parts(FIRST.number, &[table, term])
}

/// One row: the library, the plain implementation and the model on the same input.
fn row(call: &str, input: &str, mut works: [Work; 3]) {
    let times = fastest(ROUNDS, LEAST, &mut works);
    let [library, plain, model] = [times[0], times[1], times[2]];
    let ratio = library / plain;
    println!("{call:<13} {library:>8.0} {plain:>8.0} {model:>9.0} {ratio:>6.2}  {input}");
}

fn check<'a>(implementation: &'a dyn Implementation, corpus: &'a Corpus) -> Work<'a> {
    Box::new(|| {
        for file in &corpus.files {
            opaque(implementation.check(opaque(file)));
        }
        corpus.files.len() as u64
    })
}

fn load<'a>(
    implementation: &'a dyn Implementation,
    profile: Profile,
    corpus: &'a Corpus,
) -> Work<'a> {
    let mut out = vec![0; limits::MAX_IMAGE];
    Box::new(move || {
        for file in &corpus.files {
            let file = opaque(file);
            opaque(implementation.load_in(profile, file, &mut out));
        }
        corpus.files.len() as u64
    })
}

/// Steps one thread as far as it goes, then begins again.
fn step<'a>(
    implementation: &'a dyn Implementation,
    profile: Profile,
    (start, thread): (&'a [u8], u64),
) -> Work<'a> {
    let mut image = start.to_vec();
    let mut out = vec![0; limits::MAX_IMAGE];
    Box::new(move || {
        let stepped = implementation.step_in(profile, opaque(&image), thread, &mut out);
        let stepped = stepped.unwrap_or_default();
        image.clear();
        if stepped.outcome == RULE {
            image.extend_from_slice(&out[..stepped.length as usize]);
        } else {
            image.extend_from_slice(start);
        }
        1
    })
}

/// The starting images of the examples and of some recipes, and an image at the limits.
fn images() -> Vec<(&'static str, Vec<u8>, u64)> {
    let mut out = vec![0; limits::MAX_IMAGE];
    let mut image = |file: &[u8]| {
        let loaded = Model.load(file, &mut out).unwrap_or_default();
        out[..loaded.length as usize].to_vec()
    };
    let mut named = |name: &str| image(&examples::file_of(name));
    let [recursion, mutex, queue] = ["recursion", "mutex", "queue"].map(&mut named);
    let largest = image(&recipes::largest(&mut Draw::new(2_006)).write());
    vec![
        ("recursion, which runs for ever", recursion, 1),
        ("mutex, one step after the other", mutex, 1),
        ("queue, with rules 8 and 9", queue, 1),
        ("largest recipe's image, first bay", largest, 16),
        ("256 names, 16 bays at their shares", at_shares(), 0),
    ]
}

/// Sixteen bays that own as many names as their share and nearly as many nodes; thread 0 has one step.
fn at_shares() -> Vec<u8> {
    let thread = |nodes: &[Node]| Component::Thread(Rc::new(Expression::of_nodes(nodes)));
    let each = share(limits::MAX_BAYS);
    let mut value = vec![Node::Lambda(0); each.nodes / each.names - 1];
    value.push(Node::Unit);
    let mut components = vec![thread(&value); limits::MAX_NAMES];
    let identity = [Node::Lambda(0), Node::Variable(0)];
    components[0] = thread(&[&[Node::Application], &identity[..], &[Node::Unit]].concat());
    let bays = (0..limits::MAX_BAYS as u8).cycle();
    write_image(&Configuration {
        components,
        owners: bays.take(limits::MAX_NAMES).collect(),
    })
}

/// What a call is named in a profile.
fn call(profile: Profile, [common, separate]: [&'static str; 2]) -> &'static str {
    match profile {
        Profile::Common => common,
        Profile::Separate => separate,
    }
}

fn main() {
    let corpora = corpora();
    println!("nanoseconds a call: library, plain, model; library / plain; input");
    let all: [&dyn Implementation; 3] = [&Library, &Plain, &Model];
    for corpus in &corpora {
        row("check", corpus.name, all.map(|one| check(one, corpus)));
    }
    for profile in PROFILES {
        let call = call(profile, ["load", "load_separate"]);
        for corpus in &corpora {
            row(call, corpus.name, all.map(|one| load(one, profile, corpus)));
        }
    }
    for profile in PROFILES {
        let call = call(profile, ["step", "step_separate"]);
        for (name, start, thread) in &images() {
            let works = all.map(|one| step(one, profile, (start, *thread)));
            row(call, name, works);
        }
    }
}
