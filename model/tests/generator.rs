//! The generator reaches what it should reach; the plain check gives the model's answers.

use model::across::{across, Across};
use model::answers::{Implementation, Model, Plain};
use model::causes;
use model::command::on_deep_stack;
use model::draw::Draw;
use model::format::hexadecimal;
use model::generate::bays;
use model::generate::images;
use model::generate::instances::constants_at_every_type;
use model::generate::recipes::{file, largest, well_typed};
use model::image::{names_of_kind, owners, read_image};
use model::kinds;
use model::limits;
use model::load::{load, Loaded};
use model::nodes::{standings, Node};
use model::rows::compounds::is_cause;
use model::rules;
use model::step::{step, Outcome};
use model::subjects::{self, case_at, subject_of, Subject};
use model::tool::faults::fault;
use model::types::{Constant, Shape};
use model::verdict::verdict;
use std::collections::BTreeMap;

#[test]
fn well_typed_recipes_are_accepted() {
    let mut draw = Draw::new(1);
    let accepted = (0..2_000).filter(|_| verdict(&well_typed(&mut draw).write()).number() == 0);
    assert_eq!(accepted.count(), 2_000);
}

#[test]
fn every_verdict_comes_and_half_are_accepted() {
    let mut draw = Draw::new(2);
    let mut counts: BTreeMap<u32, usize> = BTreeMap::new();
    for _ in 0..6_000 {
        let made = file(&mut draw);
        let answer = Model.check(&made);
        assert_eq!(answer, Plain.check(&made), "{}", hexadecimal(&made));
        *counts.entry(answer.refusal).or_default() += 1;
    }
    println!("verdicts: {counts:?}");
    let all = (0..=causes::BAY_ONCE).chain([causes::STARTING]);
    assert!(counts.keys().copied().eq(all), "{counts:?}");
    assert!(counts[&0] >= 3_000, "{counts:?}");
    assert!(counts[&causes::STARTING] >= 60, "{counts:?}");
}

#[test]
fn every_constant_and_number_of_bays_comes() {
    let mut draw = Draw::new(3);
    let mut bays = [false; 17];
    let mut tags = [0; 14];
    let mut kinds = [0; 9];
    let mut under_once = 0;
    for _ in 0..4_000 {
        let recipe = well_typed(&mut draw);
        bays[recipe.terms.len()] = true;
        for node in recipe.terms.iter().flatten() {
            tags[usize::from(node.tag())] += 1;
            if let Some(t) = node.type_number() {
                let entry = recipe.entries[usize::from(t)];
                kinds[usize::from(entry.kind)] += 1;
                let parameter = recipe.entries[usize::from(entry.p)];
                under_once += usize::from(parameter.is_once() && *node == Node::Lambda(t));
            }
        }
    }
    assert!(bays[1..].iter().all(|b| *b), "{bays:?}");
    println!("tags {tags:?}, kinds {kinds:?}");
    assert!(tags.iter().all(|count| *count > 100), "{tags:?}");
    let carried = &kinds[usize::from(model::table::ONCE)..];
    assert!(carried.iter().all(|count| *count > 20), "{kinds:?}");
    assert!(under_once > 1_000, "once-variables: {under_once}");
}

#[test]
fn the_largest_recipe_meets_every_limit() {
    let mut draw = Draw::new(4);
    let recipe = largest(&mut draw);
    assert_eq!(
        (recipe.nodes(), recipe.entries.len(), recipe.terms.len()),
        (1_024, 256, 16)
    );
    let deepest = recipe
        .terms
        .iter()
        .flat_map(|t| standings(t))
        .map(|s| s.nesting)
        .max();
    assert_eq!(deepest, Some(100));
    assert_eq!(verdict(&recipe.write()).number(), 0);
}

#[test]
fn every_constant_has_instances_and_near_ones() {
    let mut draw = Draw::new(5);
    let mut counts = [0; 12];
    for _ in 0..4 {
        for file in constants_at_every_type(&mut draw) {
            let answer = Model.check(&file);
            assert_eq!(answer, Plain.check(&file), "{}", hexadecimal(&file));
            counts[answer.refusal as usize] += 1;
        }
    }
    let came: Vec<usize> = (0..12).filter(|number| counts[*number] > 0).collect();
    let rare = [causes::TYPE_ENTRY as usize];
    let came: Vec<usize> = came.into_iter().filter(|n| !rare.contains(n)).collect();
    assert_eq!(came, [0, 7, 8, 9, 11], "{counts:?}");
    assert!(counts[0] > 10, "{counts:?}");
}

#[test]
fn pairs_lists_and_cases_are_refused_often_and_by_every_cause() {
    let mut draw = Draw::new(6);
    let mut counts: BTreeMap<u32, usize> = BTreeMap::new();
    for _ in 0..12_000 {
        let made = file(&mut draw);
        let found = fault(&made).filter(|fault| is_cause(&made, fault));
        if let Some(fault) = found {
            *counts.entry(fault.number).or_default() += 1;
        }
    }
    println!("refused by a pair, a list or a case: {counts:?}");
    for cause in [4, 7, 8, 9, 10, 11] {
        let count = counts.get(&cause).copied().unwrap_or(0);
        assert!(count >= 15, "{cause}: {counts:?}");
    }
}

const WRONG: Outcome = Outcome::Refused(causes::WRONG_KIND);

/// What a step must answer, room left aside.
fn due(shape: Shape, subject: Subject, outcome: Outcome) -> bool {
    if outcome == Outcome::Refused(causes::ROOM) {
        return true;
    }
    match (shape, subject) {
        (Shape::Pair, Subject::Pair) => matches!(outcome, Outcome::Rule(rules::CASE_PAIR, _)),
        (Shape::List, Subject::Front) => matches!(outcome, Outcome::Rule(rules::CASE_LIST, _)),
        (_, Subject::DoneThread) => matches!(outcome, Outcome::Rule(rules::FUTURE_DEREF, _)),
        (_, Subject::UnfinishedThread | Subject::Future) => {
            matches!(outcome, Outcome::Waiting(_))
        }
        _ => outcome == WRONG,
    }
}

#[test]
fn images_have_cases_of_every_subject() {
    on_deep_stack(|| {
        let mut draw = Draw::new(7);
        let mut out = vec![0; limits::MAX_IMAGE];
        let mut counts: BTreeMap<(u8, Subject), usize> = BTreeMap::new();
        for _ in 0..4_000 {
            let image = images::image(&mut draw);
            let configuration = match read_image(&image) {
                Some(configuration) => configuration,
                None => continue,
            };
            for thread in 0..configuration.names().min(8) {
                let case = match case_at(&configuration, thread as u64) {
                    Some(case) => case,
                    None => continue,
                };
                let subject = subject_of(&configuration, &case);
                let outcome = step(&image, thread as u64, &mut out);
                assert!(due(case.shape, subject, outcome), "{subject:?} {outcome:?}");
                let tag = Node::Case(case.shape).tag();
                *counts.entry((tag, subject)).or_default() += 1;
            }
        }
        println!("{counts:?}");
        assert_eq!(counts.len(), 2 * subjects::ALL.len(), "{counts:?}");
        assert!(counts.values().all(|count| *count >= 15), "{counts:?}");
    });
}

#[test]
fn runs_take_pairs_and_lists_apart_and_wait_for_them() {
    on_deep_stack(|| {
        let mut draw = Draw::new(8);
        let mut out = vec![0; limits::MAX_IMAGE];
        let mut counts: BTreeMap<(Subject, String), usize> = BTreeMap::new();
        for _ in 0..1_500 {
            let made = well_typed(&mut draw).write();
            let mut image = match load(&made, &mut out) {
                Loaded::Accepted(_, length) => out[..length].to_vec(),
                Loaded::Refused(_) => continue,
            };
            for _ in 0..30 {
                let configuration = read_image(&image).expect("an image of a run");
                let thread = images::thread_number(&mut draw, &image);
                let case = case_at(&configuration, thread);
                let outcome = step(&image, thread, &mut out);
                if let Some(case) = case {
                    let answer = match outcome {
                        Outcome::Rule(rule, _) => format!("rule {rule}"),
                        Outcome::Waiting(_) => "waiting".to_owned(),
                        other => format!("{other:?}"),
                    };
                    let subject = subject_of(&configuration, &case);
                    *counts.entry((subject, answer)).or_default() += 1;
                }
                if let Outcome::Rule(_, length) = outcome {
                    image = out[..length].to_vec();
                }
            }
        }
        println!("{counts:?}");
        for (subject, answer, least) in [
            (Subject::Pair, "rule 8", 200),
            (Subject::Front, "rule 9", 40),
            (Subject::DoneThread, "rule 3", 60),
            (Subject::UnfinishedThread, "waiting", 30),
            (Subject::Future, "waiting", 60),
        ] {
            let count = counts.get(&(subject, answer.to_owned())).copied();
            assert!(
                count.unwrap_or(0) >= least,
                "{subject:?} {answer}: {counts:?}"
            );
        }
    });
}

/// Owners that break the layout, each the only fault of its image: by kind and owner.
fn wrong_owners(image: &[u8]) -> Vec<(u8, u8)> {
    let mut found = Vec::new();
    for kind in [
        kinds::THREAD,
        kinds::CELL,
        kinds::USED_HANDLE,
        kinds::FUTURE,
    ] {
        for name in names_of_kind(image, kind) {
            let companion = limits::FIRST_HEAD + limits::HEAD_LENGTH * name as usize + 1;
            let mut sound = image.to_vec();
            sound[companion] = 0;
            if read_image(&sound).is_some() && read_image(image).is_none() {
                found.push((kind, image[companion]));
            }
        }
    }
    found
}

/// Document 02, T-08: all bays, futures of high numbers, steps between bays, and every wrong owner.
#[test]
fn images_have_owners_of_every_bay_and_wrong_ones() {
    on_deep_stack(|| {
        let mut draw = Draw::new(9);
        let mut bays = [0; limits::MAX_BAYS];
        let mut several = 0;
        let (mut high_futures, mut highest_futures) = (0, 0);
        let mut between = BTreeMap::new();
        let mut wrong: BTreeMap<(u8, u8), usize> = BTreeMap::new();
        for _ in 0..4_000 {
            let image = images::image(&mut draw);
            if let Some(now) = read_image(&image) {
                now.owners
                    .iter()
                    .for_each(|owner| bays[usize::from(*owner)] += 1);
                several += usize::from(now.owners.iter().any(|owner| *owner != now.owners[0]));
                let futures = names_of_kind(&image, kinds::FUTURE);
                high_futures += usize::from(futures.iter().any(|future| *future >= 16));
                highest_futures += usize::from(futures.iter().any(|future| *future >= 200));
                for thread in 0..now.names().min(8) {
                    if let Some(what) = across(&now, thread as u64) {
                        *between.entry(what).or_insert(0) += 1;
                    }
                }
                assert_eq!(owners(&image), now.owners);
            } else if image.len() < 2_000 {
                for fault in wrong_owners(&image) {
                    *wrong.entry(fault).or_default() += 1;
                }
            }
        }
        println!("{bays:?}, {several} of several bays, {high_futures}, {highest_futures}");
        println!("{between:?} {wrong:?}");
        assert!(bays.iter().all(|count| *count > 500), "{bays:?}");
        assert!(several > 1_000);
        assert!(high_futures > 200 && highest_futures > 40);
        assert_eq!(between.len(), 5, "{between:?}");
        assert!(between.values().all(|count| *count > 20), "{between:?}");
        for kind in [
            kinds::THREAD,
            kinds::CELL,
            kinds::USED_HANDLE,
            kinds::FUTURE,
        ] {
            for owner in [16, 255] {
                let count = wrong.get(&(kind, owner)).copied().unwrap_or(0);
                assert!(count >= 5, "kind {kind}, owner {owner}: {wrong:?}");
            }
        }
    });
}

/// Bays that make names of what other bays left in the settings.
#[test]
fn runs_make_names_of_what_came_from_other_bays() {
    on_deep_stack(|| {
        let mut draw = Draw::new(10);
        let mut out = vec![0; limits::MAX_IMAGE];
        let mut between = BTreeMap::new();
        for _ in 0..600 {
            let made = bays::recipe(&mut draw).write();
            let mut image = match load(&made, &mut out) {
                Loaded::Accepted(_, length) => out[..length].to_vec(),
                Loaded::Refused(number) => panic!("{number}: {}", hexadecimal(&made)),
            };
            for _ in 0..60 {
                let thread = images::thread_number(&mut draw, &image);
                let now = read_image(&image).expect("an image of a run");
                if let Outcome::Rule(_, length) = step(&image, thread, &mut out) {
                    if let Some(what) = across(&now, thread) {
                        *between.entry(what).or_insert(0) += 1;
                    }
                    image = out[..length].to_vec();
                }
            }
        }
        println!("{between:?}");
        for what in [Across::Exchanges, Across::Makes(Constant::Cell)] {
            let count = between.get(&what).copied().unwrap_or(0);
            assert!(count > 20, "{what:?}: {between:?}");
        }
    });
}
