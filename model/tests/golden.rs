//! What `show`, `run` and `draws` print for the examples is what stands in `tests/golden`. With
//! GOLDEN=write in the environment the files are written anew, to be read before they are kept.

mod program_common;
mod tool_common;

use model::answers::Model;
use model::command::on_deep_stack;
use model::examples;
use model::generate::test_loads;
use model::profile::Profile;
use model::test_load::{printed, Input};
use model::verdict::verdict;
use std::path::Path;
use tool_common::*;

/// What is printed is the same with and without the library, but for whose answers it is.
fn compare(kind: &str, name: &str, found: &str) {
    let by_whom = format!(" by {}", model::tool::judge::NAME);
    let found = found.replace(&by_whom, " by the proved library");
    let folder = Path::new(env!("CARGO_MANIFEST_DIR"))
        .join("tests/golden")
        .join(kind);
    let file = folder.join(format!("{name}.txt"));
    if std::env::var("GOLDEN").as_deref() == Ok("write") {
        std::fs::write(&file, &found).expect("the golden file is written");
    }
    let kept = std::fs::read_to_string(&file).unwrap_or_default();
    assert_eq!(found, kept, "{}", file.display());
}

/// The words that ask for the example's profile.
fn profile_of(example: &examples::Example) -> &'static [&'static str] {
    match example.profile {
        Profile::Common => &[],
        Profile::Separate => &["--separate"],
    }
}

#[test]
fn show() {
    for example in examples::all() {
        let file = format!("examples/{}.recipe", example.name);
        let output = recipe(&[&["show", file.as_str()], profile_of(&example)].concat());
        let refused = example.name.starts_with("refused");
        assert_eq!(output.status.code(), Some(i32::from(refused)));
        compare("show", example.name, &standard_output(&output));
    }
}

/// The first line says who steps; the rest is the same with and without the library.
fn without_first_line(text: &str) -> &str {
    text.split_once('\n').map_or("", |(_, rest)| rest)
}

#[test]
fn run() {
    for example in examples::all() {
        let file = format!("examples/{}.recipe", example.name);
        let words = ["run", file.as_str(), "--turns", "60"];
        let output = recipe(&[&words, profile_of(&example)].concat());
        if example.name.starts_with("refused") {
            assert_eq!(output.status.code(), Some(1));
            compare("run", example.name, &standard_error(&output));
        } else {
            assert_eq!(output.status.code(), Some(0));
            compare(
                "run",
                example.name,
                without_first_line(&standard_output(&output)),
            );
        }
    }
}

#[test]
fn orders() {
    let file = "examples/mutex.recipe";
    let seed = recipe(&["run", file, "--seed", "7"]);
    compare(
        "run",
        "mutex, seed 7",
        without_first_line(&standard_output(&seed)),
    );
    let order = recipe(&["run", file, "--order", "1,1,3,9"]);
    compare(
        "run",
        "mutex, order 1,1,3,9",
        without_first_line(&standard_output(&order)),
    );
}

/// What is told as separate bays runs in the common profile too.
#[test]
fn run_in_the_common_profile() {
    for name in ["tenants", "refused-20", "refused-21"] {
        let output = recipe(&["run", &format!("examples/{name}.recipe")]);
        assert_eq!(output.status.code(), Some(0));
        compare(
            "run",
            &format!("{name}, common"),
            without_first_line(&standard_output(&output)),
        );
    }
}

/// The test load is of the common profile.
#[test]
fn draws() {
    for example in examples::all() {
        let file = format!("examples/{}.recipe", example.name);
        let output = recipe(&["draws", &file, "--seed", "1", "--count", "40"]);
        let refused = verdict(&example.file()).number() != 0;
        assert_eq!(output.status.code(), Some(i32::from(refused)));
        compare("draws", example.name, &standard_output(&output));
    }
}

/// The program's own run is held beside it: 10,000 draws over nine bays, and the model's lines.
#[test]
fn the_held_run() {
    let folder = Path::new(env!("CARGO_MANIFEST_DIR")).join("../crates/test_load");
    let given = test_loads::held();
    let printed = on_deep_stack(|| printed(&Model, &given));
    assert_eq!(printed.lines().count(), 10_000);
    for (name, found) in [("stdin", &given[..]), ("stdout", printed.as_bytes())] {
        let file = folder.join(name);
        if std::env::var("GOLDEN").as_deref() == Ok("write") {
            std::fs::write(&file, found).expect("the held file is written");
        }
        let kept = std::fs::read(&file).unwrap_or_default();
        assert!(found == kept, "{}", file.display());
    }
}

/// The program that the variable TEST_LOAD names prints what the tool does.
#[test]
fn the_program_prints_what_is_held() {
    if let Some(program) = std::env::var_os("TEST_LOAD") {
        for example in examples::all() {
            let input = Input {
                seed: 1,
                count: 40,
                recipe: &example.file(),
            };
            let text = program_common::written(&program, &input.bytes());
            compare("draws", example.name, &text);
        }
    }
}
