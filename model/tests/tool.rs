//! The tool as a user meets it: messages, exit statuses, files that are kept.

mod tool_common;

use model::answers::Model;
use model::command::on_deep_stack;
use model::examples;
use model::limits::MAX_DRAWS;
use model::test_load::printed;
use std::process::{Command, Output, Stdio};
use tool_common::*;

#[test]
fn help() {
    for words in [
        &["help"][..],
        &["--help"],
        &["help", "show"],
        &["help", "write"],
    ] {
        let output = recipe(words);
        assert_eq!(output.status.code(), Some(0));
        assert!(standard_output(&output).contains("recipe "));
    }
    assert!(standard_output(&recipe(&["help", "show"])).contains("start 250"));
    assert!(standard_output(&recipe(&["help", "write"])).contains("bay 0 = start 100 exch"));
    assert!(standard_output(&recipe(&["help", "run"])).contains("--svg"));
    assert!(standard_output(&recipe(&["run", "--help"])).contains("--svg"));
    assert!(standard_output(&recipe(&["help", "draws"])).contains("| test_load"));
    assert!(standard_output(&recipe(&["help", "compare"])).contains("gcc -shared"));
    for command in ["show", "write", "run"] {
        assert!(standard_output(&recipe(&["help", command])).contains("\n  --separate "));
    }
}

#[test]
fn wrong_words() {
    let cases: [(&[&str], &str); 23] = [
        (&["run", "a", "--svg", "--force"], "--svg needs a value"),
        (&[], "no command is given"),
        (&["fly"], "there is no command fly"),
        (&["help", "fly"], "there is no command fly"),
        (&["show"], "a file is missing"),
        (&["show", "a", "b"], "there are too many files"),
        (&["show", "a", "--fast"], "there is no option --fast"),
        (
            &["show", "a", "--ascii", "--ascii"],
            "--ascii is given twice",
        ),
        (&["run", "a", "--turns"], "--turns needs a value"),
        (
            &["run", "a", "--turns", "-1"],
            "--turns takes a number, not -1",
        ),
        (&["run", "a", "--seed=x"], "--seed takes a number, not x"),
        (
            &["run", "a", "--order", "1,,2"],
            "--order takes numbers such as 1,2,1, not 1,,2",
        ),
        (
            &["run", "a", "--seed", "1", "--order", "1"],
            "--seed and --order exclude each other",
        ),
        (&["write", "-"], "needs the name of the file to write"),
        (
            &["draws", "--seed", "1", "--count", "1"],
            "a file is missing",
        ),
        (&["draws", "a", "--count", "1"], "--seed is missing"),
        (&["draws", "a", "--seed", "1"], "--count is missing"),
        (
            &["draws", "a", "--seed", "-1", "--count", "1"],
            "--seed takes a number, not -1",
        ),
        (
            &["draws", "a", "--seed", "4294967296", "--count", "1"],
            "--seed takes a number up to 4294967295, not 4294967296",
        ),
        (
            &["draws", "a", "--seed", "1", "--count", "65536"],
            "--count takes a number up to 65535, not 65536",
        ),
        (
            &["draws", "a", "--separate"],
            "there is no option --separate",
        ),
        (
            &["run", "a", "--separate", "--separate"],
            "--separate is given twice",
        ),
        (&["compare", "a"], "a file is missing"),
    ];
    for (words, expected) in cases {
        let text = wrong_usage(words);
        assert!(text.contains(expected), "{words:?}: {text}");
    }
}

#[test]
fn the_version_says_whether_the_library_is_built_in() {
    let output = recipe(&["--version"]);
    assert_eq!(output.status.code(), Some(0));
    let number = env!("CARGO_PKG_VERSION");
    let with = if cfg!(feature = "library") {
        "with"
    } else {
        "without"
    };
    let expected = format!("recipe {number}, {with} the proved library");
    let text = standard_output(&output);
    assert!(text.starts_with(&expected), "{text}");
    assert_eq!(text.lines().count(), 1);
}

#[test]
fn files_that_cannot_be_read() {
    let folder = Folder::new();
    for command in ["show", "write", "run"] {
        let text = complaint(
            &[command, &folder.path("none"), "out"][..if command == "write" { 3 } else { 2 }],
        );
        assert!(text.contains("cannot read"), "{text}");
        assert!(text.contains("No such file"), "{text}");
    }
    let words = ["draws", &folder.path("none"), "--seed", "1", "--count", "1"];
    assert!(complaint(&words).contains("cannot read"));
    assert!(complaint(&["show", &folder.path("")]).contains("cannot read"));
    assert!(complaint(&["show", "/dev/zero"]).contains("is longer than"));
    let text = folder.file("latin.txt", b"bay 0 = unit # \xE4");
    assert!(complaint(&["write", &text]).contains("no text in UTF-8: byte 15"));
    let wide = folder.file("wide.txt", b"\xFF\xFEb\0a\0y\0");
    assert!(complaint(&["write", &wide]).contains("byte 0 (it is UTF-16; save the text as UTF-8)"));
    assert!(complaint(&["compare", "none.so", "none.so"]).contains("cannot open none.so"));
    let no_library = folder.file("no.so", "no library");
    assert!(complaint(&["compare", &no_library, &no_library]).contains("cannot open"));
}

#[test]
fn nothing_is_written_over() {
    let folder = Folder::new();
    let text = folder.file("vent.txt", "bay 0 = unit");
    let made = folder.path("vent.recipe");
    assert_eq!(recipe(&["write", &text]).status.code(), Some(0));
    assert_eq!(std::fs::read(&made).expect("written").len(), 22);
    std::fs::write(&made, "kept").expect("a file");
    assert!(complaint(&["write", &text]).contains("exists and is not written over"));
    assert_eq!(std::fs::read(&made).expect("kept"), b"kept");
    assert_eq!(recipe(&["write", &text, "--force"]).status.code(), Some(0));
    assert_eq!(std::fs::read(&made).expect("written").len(), 22);
    assert!(complaint(&["write", &text, &text, "--force"]).contains("is the text itself"));
    assert!(complaint(&["run", &made, "--svg", &text]).contains("exists and is not written over"));
    assert_eq!(std::fs::read(&text).expect("kept"), b"bay 0 = unit");
}

#[test]
fn a_refused_text_leaves_no_file() {
    let folder = Folder::new();
    let text = folder.file("vent.txt", "bay 0 = unit unit");
    let told = complaint(&["write", &text]);
    assert!(told.contains("vent.txt:1:9: refused 9"), "{told}");
    assert!(!folder.0.join("vent.recipe").exists());
    let written = recipe(&["write", &text, "--even-refused"]);
    assert_eq!(written.status.code(), Some(0));
    let shown = complaint(&["show", &folder.path("vent.recipe")]);
    assert!(shown.contains("refused 9"), "{shown}");
    let run = complaint(&["run", &folder.path("vent.recipe")]);
    assert!(
        run.contains("bay 0, function, byte 22: unit is applied"),
        "{run}"
    );
}

/// The proved library's verdict where it is built in, else the model's.
#[test]
fn show_and_write_say_whose_verdict_it_is() {
    let name = if cfg!(feature = "library") {
        "the proved library"
    } else {
        "the model"
    };
    let folder = Folder::new();
    let good = folder.file("good.txt", "bay 0 = unit");
    let written = standard_output(&recipe(&["write", &good]));
    let accepted = format!(": 22 bytes, accepted by {name}\n");
    assert!(written.ends_with(&accepted), "{written}");
    let shown = standard_output(&recipe(&["show", &folder.path("good.recipe")]));
    assert!(
        shown.contains(&format!(": accepted by {name}\n")),
        "{shown}"
    );
    let bad = folder.file("bad.txt", "bay 0 = unit unit");
    let told = complaint(&["write", &bad]);
    assert!(
        told.contains(&format!(":1:9: refused 9 by {name}: ")),
        "{told}"
    );
    let forced = standard_output(&recipe(&["write", &bad, "--even-refused"]));
    assert!(
        forced.ends_with(&format!(", refused 9 by {name}\n")),
        "{forced}"
    );
    let shown = recipe(&["show", &folder.path("bad.recipe")]);
    let expected = format!(": refused 9 by {name}");
    assert!(standard_output(&shown).contains(&format!("{expected}: ")));
    assert!(standard_error(&shown).ends_with(&format!("{expected}\n")));
}

#[test]
fn standard_input_and_output() {
    let mut show = Command::new(env!("CARGO_BIN_EXE_recipe"))
        .args(["show", "examples/mutex.recipe"])
        .current_dir(repository())
        .stdout(Stdio::piped())
        .spawn()
        .expect("the tool runs");
    let shown = show.stdout.take().expect("a pipe");
    let write = Command::new(env!("CARGO_BIN_EXE_recipe"))
        .args(["write", "-", "-"])
        .stdin(shown)
        .output()
        .expect("the tool runs");
    assert!(show.wait().expect("it ends").success());
    let kept = std::fs::read(repository().join("examples/mutex.recipe"));
    assert_eq!(write.stdout, kept.expect("an example"));
}

#[test]
fn a_closed_pipe_ends_quietly() {
    let mut run = Command::new(env!("CARGO_BIN_EXE_recipe"))
        .args(["run", "examples/recursion.recipe", "--turns", "100000"])
        .current_dir(repository())
        .stdout(Stdio::piped())
        .stderr(Stdio::piped())
        .spawn()
        .expect("the tool runs");
    drop(run.stdout.take());
    let output = run.wait_with_output().expect("it ends");
    assert_eq!(output.status.code(), Some(0));
    assert_eq!(standard_error(&output), "");
}

#[test]
fn a_full_disk_is_told() {
    let full = std::fs::OpenOptions::new().write(true).open("/dev/full");
    let output = Command::new(env!("CARGO_BIN_EXE_recipe"))
        .arg("help")
        .stdout(full.expect("/dev/full"))
        .output()
        .expect("the tool runs");
    assert_eq!(output.status.code(), Some(1));
    assert!(standard_error(&output).contains("cannot write to standard output"));
}

#[test]
fn progress_only_when_asked() {
    let words = ["run", "examples/recursion.recipe", "--turns", "20000"];
    assert_eq!(standard_error(&recipe(&words)), "");
    let asked = recipe(&["run", "examples/mutex.recipe", "--progress"]);
    assert_eq!(standard_error(&asked), "31 turns\n");
}

#[test]
fn the_picture_of_a_run() {
    let folder = Folder::new();
    let picture = folder.path("nine.svg");
    let output = recipe(&["run", "examples/nine-bays.recipe", "--svg", &picture]);
    assert_eq!(output.status.code(), Some(0));
    let text = std::fs::read_to_string(&picture).expect("a picture");
    assert!(text.starts_with("<svg ") && text.ends_with("</svg>\n"));
    assert_eq!(text.matches("<polyline").count(), 9);
    assert!(text.contains("bay 8: 90.0 %"));
    let waiting = folder.path("waiting.svg");
    recipe(&["run", "examples/waiting-for-ever.recipe", "--svg", &waiting]);
    let text = std::fs::read_to_string(&waiting).expect("a picture");
    assert!(text.contains("waits for name 2 of bay 0"), "{text}");
}

/// What stands between the turns and the vents.
fn ending(words: &[&str]) -> String {
    let output = recipe(words);
    assert_eq!(output.status.code(), Some(0), "{}", standard_error(&output));
    let text = standard_output(&output);
    let (_, end) = text.split_once("\nStopped after ").expect("why it stopped");
    let (end, _) = end.split_once("\n\nbay  vent").expect("the vents");
    end.to_owned()
}

/// Why a run stopped, and whose the runner's answer is.
#[test]
fn a_run_says_why_it_stopped() {
    let one_call = format!(
        "One call of the runner, by {}, comes to the same: ",
        model::tool::judge::NAME
    );
    let vent = "examples/one-vent.recipe";
    let expected = format!(
        "1 turn: no thread can go, each is done or waits.\n  bay 0   thread 1 is done\n{one_call}stop 1, 1 turn, buffer 1, length 20."
    );
    assert_eq!(ending(&["run", vent]), expected);
    let expected = format!(
        "1 turn: all turns are taken.\n  bay 0   thread 1 is done\n{one_call}stop 0, 1 turn, buffer 1, length 20."
    );
    assert_eq!(ending(&["run", vent, "--turns", "1"]), expected);
    let expected = format!(
        "0 turns: all turns are taken.\n  bay 0   thread 1 can go\n{one_call}stop 0, 0 turns, buffer 0, length 26."
    );
    assert_eq!(ending(&["run", vent, "--turns", "0"]), expected);
    let folder = Folder::new();
    let cells = "bay 0 = (λf:unit →ω unit. f unit) (thread[((unit →ω unit) →ω unit →ω unit) →ω unit →ω unit] \
                 (λf:unit →ω unit. λx:unit. (λy:num ref. f unit) (cell[num →ω num ref] 3)))";
    folder.file("cells.txt", cells);
    assert!(recipe(&["write", &folder.path("cells.txt")])
        .status
        .success());
    let text = ending(&["run", &folder.path("cells.recipe"), "--turns", "3000"]);
    assert!(
        text.contains(": no thread can go, and one lacks room.\n"),
        "{text}"
    );
    assert!(
        text.contains("  bay 0   thread 1 is refused 15: "),
        "{text}"
    );
    assert!(text.contains("stop 2, "), "{text}");
}

/// "The service screen shows whose job waits": each turn has its thread's bay, and at the end the threads
/// stand by their bays, with whose name they wait for.
#[test]
fn a_run_says_whose_job_waits() {
    let file = "examples/whose-job.recipe";
    let text = standard_output(&recipe(&["run", file]));
    for line in [
        "  turn  thread  of bay  answer                 bay 0  bay 1  bay 2\n",
        "     1       4       1  rule 4 HANDLE.NEW          0      0      0\n",
        "     2       5       2  rule 4 HANDLE.NEW          0      0      0\n",
        "\n  bay 0   thread 3 is done\n  bay 1   thread 10 waits for name 6, a future of bay 1\n",
        "\n  bay 2   threads 5, 8, 11 are done\n",
        "\n  0  awaits name 10, a thread of bay 1\n",
        "\n  2  60.0 % (held under name 11, a thread of bay 2)\n",
    ] {
        assert!(text.contains(line), "{line}{text}");
    }
    let text = standard_output(&recipe(&["run", file, "--order", "4,5,10,11,99"]));
    for line in [
        "      11       2  waits for name 8, a future of bay 2     ",
        "      99       -  refused 14  ",
    ] {
        assert!(text.contains(line), "{line}\n{text}");
    }
}

/// Other orders, and more turns than the runner takes, are of steps alone.
#[test]
fn the_runner_is_asked_in_its_own_order_and_up_to_65535_turns() {
    let file = "examples/recursion.recipe";
    let asked = |words: &[&str]| ending(words).contains("One call of the runner");
    assert!(asked(&["run", file, "--turns", "65535"]));
    assert!(!asked(&["run", file, "--turns", "65536"]));
    assert!(!asked(&["run", file, "--seed", "7"]));
    assert!(!asked(&["run", file, "--order", "1"]));
    let text = ending(&["run", "examples/nine-bays.recipe", "--order", "9"]);
    assert!(
        text.contains(": no thread of the order can go.\n"),
        "{text}"
    );
}

/// The tool with these words after `draws`, a file, a seed and a number.
fn draws(file: &str, seed: u32, count: u16, more: &[&str]) -> Output {
    let (seed, count) = (seed.to_string(), count.to_string());
    let words = ["draws", file, "--seed", &seed, "--count", &count];
    recipe(&[&words[..], more].concat())
}

/// The lines are the model's, also where the library steps; `--input` writes what they are the lines of.
#[test]
fn the_draws_of_a_test_load() {
    for name in ["mutex", "queue", "recursion", "waiting-for-ever"] {
        let file = format!("examples/{name}.recipe");
        for (seed, count) in [(1, 0), (7, 1), (2_006, 300), (u32::MAX, u16::MAX)] {
            let output = draws(&file, seed, count, &[]);
            assert_eq!(output.status.code(), Some(0));
            assert_eq!(standard_error(&output), "");
            let text = standard_output(&output);
            assert_eq!(text.lines().count(), usize::from(count.min(MAX_DRAWS)));
            let input = draws(&file, seed, count, &["--input"]).stdout;
            assert_eq!(input[..4], seed.to_le_bytes());
            assert_eq!(input[4..6], count.to_le_bytes());
            assert_eq!(input[6..], examples::file_of(name));
            assert_eq!(text, on_deep_stack(|| printed(&Model, &input)));
        }
    }
}

/// The recipe's verdict is told first, and a seed of zero then; the message says more.
#[test]
fn draws_that_are_refused() {
    let name = model::tool::judge::NAME;
    for (file, seed, number, why) in [
        (
            "refused-9",
            1,
            9,
            format!(": refused 9 by {name}: application "),
        ),
        (
            "refused-9",
            0,
            9,
            format!(": refused 9 by {name}: application "),
        ),
        (
            "refused-19",
            1,
            19,
            format!(": refused 19 by {name}: a starting part "),
        ),
        (
            "refused-19",
            0,
            19,
            format!(": refused 19 by {name}: a starting part "),
        ),
        (
            "one-vent",
            0,
            18,
            ": refused 18: a seed of zero\n".to_owned(),
        ),
    ] {
        let file = format!("examples/{file}.recipe");
        let output = draws(&file, seed, 5, &[]);
        assert_eq!(output.status.code(), Some(1));
        assert_eq!(standard_output(&output), format!("verdict {number}\n"));
        let told = standard_error(&output);
        assert!(told.starts_with(&format!("recipe: {file}{why}")), "{told}");
        let input = draws(&file, seed, 5, &["--input"]);
        assert_eq!(input.status.code(), Some(0));
    }
}

/// A text whose bay 1 sets the vent of bay 0, on its second line.
const OTHERS_VENT: &str = "bay 0 = exch[num ref →ω num →ω num] setting0 250\n\
                           bay 1 = exch[num ref →ω num →ω num] setting0 900\n";

/// Refused 20 at the place in the text; in the common profile it may.
#[test]
fn a_text_with_anothers_setting() {
    let name = model::tool::judge::NAME;
    let folder = Folder::new();
    let text = folder.file("vents.txt", OTHERS_VENT);
    let told = complaint(&["write", "--separate", &text]);
    let expected = format!(
        "vents.txt:2:37: refused 20 by {name}: a bay names another bay's setting; setting0, and bay 1 may name \
         setting1 only\n"
    );
    assert!(told.ends_with(&expected), "{told}");
    assert!(!folder.0.join("vents.recipe").exists());
    let forced = recipe(&["write", "--separate", "--even-refused", &text]);
    let forced = standard_output(&forced);
    assert!(
        forced.ends_with(&format!(", refused 20 by {name}\n")),
        "{forced}"
    );
    let common = standard_output(&recipe(&["write", "--force", &text]));
    assert!(
        common.ends_with(&format!(", accepted by {name}\n")),
        "{common}"
    );
    let own = folder.file(
        "own.txt",
        OTHERS_VENT.replace("setting0 900", "setting1 900"),
    );
    let written = standard_output(&recipe(&["write", "--separate", &own]));
    let accepted = format!(", accepted by {name}, as separate bays\n");
    assert!(written.ends_with(&accepted), "{written}");
    let shown = recipe(&["show", "--separate", &folder.path("own.recipe")]);
    assert_eq!(shown.status.code(), Some(0));
    assert!(standard_output(&shown).contains(&format!(": accepted by {name}, as separate bays\n")));
}

/// Refused 21 at the first node above the share.
#[test]
fn a_text_above_its_share() {
    let folder = Folder::new();
    let bays = |applied: usize| {
        let large = format!(
            "{}unit{}",
            "(λx:unit. x) (".repeat(applied),
            ")".repeat(applied)
        );
        let others: String = (1..16).map(|bay| format!("bay {bay} = unit\n")).collect();
        format!("bay 0 =\n{large}\n{others}")
    };
    let text = folder.file("large.txt", bays(85));
    let told = complaint(&["write", "--separate", &text]);
    assert!(told.contains("large.txt:2:1191: refused 21 by "), "{told}");
    assert!(
        told.ends_with(
            "; bay 0 has 256 nodes and 1 in its setting; with 16 bays each one's share is 256\n"
        ),
        "{told}"
    );
    let less = folder.file("less.txt", bays(84));
    assert!(recipe(&["write", "--separate", &less]).status.success());
}

/// A run as separate bays says who is above whose share, and what each bay owns; the runner is not asked.
#[test]
fn a_run_as_separate_bays() {
    let file = "examples/tenants.recipe";
    let stepper = model::tool::run::STEPPER;
    let output = recipe(&["run", "--separate", file]);
    assert_eq!(output.status.code(), Some(0));
    let text = standard_output(&output);
    let first = format!("{file} as separate bays, stepped by {stepper}, in the runner's order\n");
    assert!(text.starts_with(&first), "{text}");
    let last = "\nStopped after 22 turns: no thread can go, and one lacks room.\n  \
                bay 0   thread 2 is done\n  \
                bay 1   thread 3 is refused 15: a rule applies, outcome leaves bay 1 with 3,092 nodes, above its \
                share of 2,048\n\n\
                Each bay's share is 128 names and 2,048 nodes.\n\
                bay  names  nodes  vent\n  0      2      2  40.0 %\n  1      2   1564  0.0 %\n";
    assert!(text.ends_with(last), "{text}");
    let by_order = standard_output(&recipe(&["run", "--separate", file, "--order", "3"]));
    assert!(by_order.contains("  refused 15  "), "{by_order}");
    let folder = Folder::new();
    let picture = folder.path("tenants.svg");
    recipe(&["run", "--separate", file, "--svg", &picture]);
    let drawn = std::fs::read_to_string(&picture).expect("a picture");
    assert!(drawn.contains("tenants.recipe as separate bays"), "{drawn}");
    assert!(drawn.contains("refused 15"), "{drawn}");
    for (name, number) in [("refused-20", 20), ("refused-21", 21), ("refused-9", 9)] {
        let file = format!("examples/{name}.recipe");
        let told = complaint(&["run", "--separate", &file]);
        assert!(told.contains(&format!(": refused {number} by ")), "{told}");
    }
}

/// Names above a share are told too: bay 0 makes cells without end, beside a neighbour with nothing to do.
#[test]
fn a_run_above_its_share_of_names() {
    let folder = Folder::new();
    let cells = "bay 0 = (λf:unit →ω unit. f unit) (thread[((unit →ω unit) →ω unit →ω unit) →ω unit →ω unit] \
                 (λf:unit →ω unit. λx:unit. (λy:num ref. f unit) (cell[num →ω num ref] 3)))\nbay 1 = unit";
    let text = folder.file("cells.txt", cells);
    assert!(recipe(&["write", &text]).status.success());
    let file = folder.path("cells.recipe");
    let text = standard_output(&recipe(&["run", "--separate", &file, "--turns", "3000"]));
    let expected = "thread 2 is refused 15: a rule applies, outcome leaves bay 0 with 129 names, above its share of 128\n";
    assert!(text.contains(expected), "{text}");
    assert!(text.contains("\n  0    128 "), "{text}");
    assert!(text.contains("\n  1      2      2  0.0 %\n"), "{text}");
}
