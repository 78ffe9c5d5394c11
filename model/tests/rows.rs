//! The rows of `crates/drawn_cases`: what stands there is what the generator draws, and every answer
//! comes often enough.

use model::answers::{REFUSED, RULE, WAITING};
use model::causes::{BAY_ONCE, BUFFER, IMAGE, STARTING, WRONG_KIND};
use model::command::on_deep_stack;
use model::draw::Draw;
use model::image::owners;
use model::limits::MAX_BAYS;
use model::rows::{checks, files, loads, steps};
use model::rules::CASE_LIST;
use std::collections::BTreeMap;
use std::path::PathBuf;

/// The fewest rows of an answer, and of all tables.
const FEWEST: usize = 8;
const FEWEST_IN_ALL: usize = 300;

fn folder() -> PathBuf {
    PathBuf::from(env!("CARGO_MANIFEST_DIR")).join("../crates/drawn_cases/specs")
}

#[test]
fn the_files_are_written_again_byte_for_byte() {
    let written = on_deep_stack(files);
    for file in &written {
        let path = folder().join(format!("{}.antt", file.name));
        let found = std::fs::read_to_string(&path).expect("the file is there");
        assert!(found == file.text, "{} is another one", path.display());
    }
    let found = std::fs::read_dir(folder()).expect("the folder is there");
    assert_eq!(found.count(), written.len(), "a file that nobody writes");
}

#[test]
fn there_are_enough_rows_of_every_answer() {
    let mut draw = Draw::new(1);
    let mut counts: BTreeMap<(&str, u32), usize> = BTreeMap::new();
    let mut count = |what, number| *counts.entry((what, number)).or_default() += 1;
    on_deep_stack(|| {
        for row in checks::rows(&mut draw) {
            count("verdict", row.answer.refusal);
        }
        for row in loads::rows(&mut draw) {
            count("load", row.answer.refusal.min(1));
        }
        for row in steps::rows(&mut draw) {
            match row.answer.outcome {
                RULE => count("rule", row.answer.number),
                WAITING => count("waiting", 0),
                REFUSED => count("refused", row.answer.number),
                _ => count("done", 0),
            }
        }
    });
    let mut expected: Vec<(&str, u32)> =
        vec![("done", 0), ("load", 0), ("load", 1), ("waiting", 0)];
    expected.extend((0..=BAY_ONCE).map(|number| ("verdict", number)));
    expected.push(("verdict", STARTING));
    expected.extend((1..=u32::from(CASE_LIST)).map(|number| ("rule", number)));
    expected.extend((BUFFER..=WRONG_KIND).map(|number| ("refused", number)));
    for answer in &expected {
        let found = counts.get(answer).copied().unwrap_or(0);
        assert!(found >= FEWEST, "{answer:?} has {found} rows");
    }
    assert!(counts.values().sum::<usize>() >= FEWEST_IN_ALL);
    assert_eq!(counts.len(), expected.len());
}

/// Document 02, T-08: images of several bays, the highest owner that there may be, and the first wrong one.
#[test]
fn there_are_enough_rows_of_owners() {
    let mut draw = Draw::new(1);
    let rows = on_deep_stack(|| steps::rows(&mut draw));
    let moved = rows.iter().filter(|row| row.answer.outcome == RULE);
    let owned: Vec<Vec<u8>> = moved.map(|row| owners(&row.new)).collect();
    let several = owned.iter().filter(|all| all.iter().any(|o| *o != all[0]));
    let several = several.count();
    assert!(several >= 40, "{several} rows of several bays");
    let highest = |all: &&Vec<u8>| all.contains(&(MAX_BAYS as u8 - 1));
    assert!(owned.iter().filter(highest).count() >= FEWEST);
    let refused = rows.iter().filter(|row| row.answer.outcome == REFUSED);
    let broken = refused.filter(|row| row.answer.number == IMAGE);
    let wrong = broken.filter(|row| owners(&row.image).contains(&(MAX_BAYS as u8)));
    assert!(wrong.count() >= 4);
}
