//! The page docs/RECIPES.md tells the truth: its texts are written to files, its commands are run,
//! and what they print is what stands there. A line of three dots stands for any lines.

mod tool_common;

use model::tool::judge::NAME;
use model::tool::run::STEPPER;
use std::process::Command;
use tool_common::*;

/// The blocks between fences: the words after the opening fence, and the lines.
fn blocks(page: &str) -> Vec<(Vec<&str>, Vec<&str>)> {
    let mut found = Vec::new();
    let mut lines = page.lines();
    while let Some(line) = lines.next() {
        if let Some(words) = line.strip_prefix("```") {
            let inside = lines.by_ref().take_while(|line| *line != "```");
            found.push((words.split_whitespace().collect(), inside.collect()));
        }
    }
    found
}

/// What a command prints, standard error after standard output.
fn printed(folder: &Folder, command: &str) -> String {
    let mut words = command.split_whitespace();
    assert_eq!(words.next(), Some("recipe"), "{command}");
    let output = Command::new(env!("CARGO_BIN_EXE_recipe"))
        .args(words)
        .current_dir(&folder.0)
        .output()
        .expect("the tool runs");
    let text = standard_output(&output) + &standard_error(&output);
    let text = text.replace(STEPPER, "the proved library");
    text.replace(&format!(" by {NAME}"), " by the proved library")
}

fn holds(expected: &str, found: &str) -> bool {
    match expected.split_once("...\n") {
        None => expected == found,
        Some((first, last)) => found.starts_with(first) && found.ends_with(last),
    }
}

fn check_commands(folder: &Folder, lines: &[&str]) -> usize {
    let text = lines.join("\n") + "\n";
    let commands = text.split("$ ").filter(|command| !command.is_empty());
    let mut count = 0;
    for command in commands {
        let (command, expected) = command.split_once('\n').expect("a line");
        let found = printed(folder, command);
        assert!(holds(expected, &found), "{command}\n{found}");
        count += 1;
    }
    count
}

#[test]
fn the_page_tells_the_truth() {
    let page = std::fs::read_to_string(repository().join("docs/RECIPES.md")).expect("the page");
    let folder = Folder::new();
    let examples = repository()
        .join("examples")
        .canonicalize()
        .expect("the examples");
    std::os::unix::fs::symlink(examples, folder.0.join("examples")).expect("a link");
    let mut commands = 0;
    for (words, lines) in blocks(&page) {
        match words.as_slice() {
            ["console"] => commands += check_commands(&folder, &lines),
            ["text", name] => {
                folder.file(name, lines.join("\n"));
            }
            _ => panic!("a block of another kind: {words:?}"),
        }
    }
    assert!(commands >= 5, "{commands} commands");
}

#[test]
fn the_pages_pictures_are_what_the_tool_draws() {
    let folder = Folder::new();
    for name in ["mutex", "whose-job"] {
        let picture = folder.path(&format!("{name}.svg"));
        let file = format!("examples/{name}.recipe");
        recipe(&["run", &file, "--svg", &picture]);
        let kept = std::fs::read_to_string(repository().join(format!("docs/{name}.svg")));
        let drawn = std::fs::read_to_string(&picture);
        assert_eq!(drawn.expect("a picture"), kept.expect("the page's picture"));
    }
}
