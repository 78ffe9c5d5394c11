//! The claim about runs, on random runs of accepted recipes.

use model::config::{Component, Configuration};
use model::draw::Draw;
use model::expression::Expression;
use model::format::hexadecimal;
use model::generate::images::{out_length, thread_number};
use model::generate::recipes::{at_a_limit, well_typed};
use model::image::read_image;
use model::limits;
use model::run::Run;
use model::step::Outcome;
use model::subjects::case_at;
use std::collections::BTreeSet;

fn watch(draw: &mut Draw, file: &[u8], steps: usize, rules: &mut [usize; 10]) {
    let mut run = match Run::start(file) {
        Some(run) => run,
        None => return,
    };
    run.values_have_their_types().expect("after the load");
    for _ in 0..steps {
        let thread = thread_number(draw, &run.image);
        let mut out = vec![draw.byte(); out_length(draw)];
        match run.step(thread, &mut out) {
            Ok(Outcome::Rule(rule, _)) => rules[usize::from(rule)] += 1,
            Ok(_) => {}
            Err(broken) => panic!("{broken}: {}", hexadecimal(file)),
        }
    }
}

#[test]
fn the_claim_holds_on_random_runs() {
    let mut draw = Draw::new(5);
    let mut rules = [0; 10];
    for _ in 0..600 {
        let file = well_typed(&mut draw).write();
        watch(&mut draw, &file, 40, &mut rules);
    }
    println!("rules 1 to 9: {rules:?}");
    assert!(rules[1..].iter().all(|count| *count > 20), "{rules:?}");
}

#[test]
fn the_claim_holds_on_long_runs_and_at_limits() {
    let mut draw = Draw::new(6);
    let mut rules = [0; 10];
    for _ in 0..20 {
        let file = at_a_limit(&mut draw).write();
        watch(&mut draw, &file, 60, &mut rules);
        let file = well_typed(&mut draw).write();
        watch(&mut draw, &file, 400, &mut rules);
    }
}

fn configuration(run: &Run) -> Configuration {
    read_image(&run.image).expect("the image of a run")
}

/// The handles that `seen` finds in random runs, where a thread is about to step: how many, and how
/// many of them were bound at a run's end.
fn seen_and_bound(seed: u64, seen: fn(&Configuration, u64) -> Vec<u8>) -> (usize, usize) {
    let mut draw = Draw::new(seed);
    let mut out = vec![0; limits::MAX_IMAGE];
    let (mut handles, mut bound) = (0, 0);
    for _ in 0..2_000 {
        let file = well_typed(&mut draw).write();
        let mut run = match Run::start(&file) {
            Some(run) => run,
            None => continue,
        };
        let mut found = BTreeSet::new();
        for _ in 0..60 {
            let thread = thread_number(&mut draw, &run.image);
            found.extend(seen(&configuration(&run), thread));
            if let Err(broken) = run.step(thread, &mut out) {
                panic!("{broken}: {}", hexadecimal(&file));
            }
        }
        let last = configuration(&run);
        let used = |name: &&u8| *last.get(**name) == Component::UsedHandle;
        handles += found.len();
        bound += found.iter().filter(used).count();
    }
    (handles, bound)
}

/// T-02, "the guarantee about running covers cells that hold something usable once".
#[test]
fn the_claim_holds_where_cells_keep_handles() {
    let (kept, bound) = seen_and_bound(7, |now, _| now.kept_handles());
    println!("{kept} handles were kept in cells, {bound} of them bound later");
    assert!(kept > 100, "{kept} handles were kept");
    assert!(bound > 10, "{bound} were bound later");
}

/// The open handles that stand in the pair which a thread is about to take apart.
fn handles_taken(now: &Configuration, thread: u64) -> Vec<u8> {
    let subject = match case_at(now, thread) {
        Some(case) => case.subject,
        None => return Vec::new(),
    };
    let components = match &*subject {
        Expression::Pair(_, first, second) => [first, second],
        _ => return Vec::new(),
    };
    let names = components.into_iter().filter_map(|e| match **e {
        Expression::Name(y) => Some(y),
        _ => None,
    });
    let is_open = |y: &u8| matches!(now.get(*y), Component::OpenHandle(_));
    names.filter(is_open).collect()
}

/// T-03: the handle in a once pair is taken out with it, and used once.
#[test]
fn the_claim_holds_where_pairs_hold_handles() {
    let (taken, bound) = seen_and_bound(8, handles_taken);
    println!("{taken} handles were taken out of pairs, {bound} of them bound later");
    assert!(taken > 50, "{taken} handles were taken out");
    assert!(bound > 10, "{bound} were bound later");
}
