//! `recipe compare` with shared libraries made here: small ones in C, and the proved library under
//! two names and with an impostor's step.

mod tool_common;

use model::answers::{RanAnswer, SteppedAnswer, VerdictAnswer};
use model::profile::Profile;
use model::tool::compare::pair::Difference;
use model::tool::compare::report::in_full;
use model::tool::compare::words::InWords;
use std::process::Command;
use tool_common::*;

/// The first recipe that is tried.
const CASE_A: &str = "4C4601020C0009001500010000000001000002010003";

/// Runs a program, which must succeed.
fn call(program: &str, words: &[&str]) {
    let output = Command::new(program).args(words).output();
    let output = output.expect("the program is there");
    assert!(
        output.status.success(),
        "{program} {words:?}: {}",
        standard_error(&output)
    );
}

/// A shared library of that C source; its path.
fn from_source(folder: &Folder, name: &str, source: &str) -> String {
    let file = folder.file(&format!("{name}.c"), source);
    let library = folder.path(&format!("{name}.so"));
    let header = repository().join("include");
    let header = format!("-I{}", header.display());
    call(
        "gcc",
        &["-shared", "-fPIC", "-O2", &header, &file, "-o", &library],
    );
    library
}

/// A checker that answers the same to every recipe.
fn always(refusal: u32) -> String {
    format!(
        "#include \"fikarehu.h\"\n\
         struct fikarehu_verdict fikarehu_check(const uint8_t *recipe, size_t recipe_len) {{\n\
             (void)recipe; (void)recipe_len;\n\
             struct fikarehu_verdict verdict = {{ {refusal}, 0, {{ 0 }} }};\n\
             return verdict;\n\
         }}\n"
    )
}

#[test]
fn a_checker_that_turns_everything_away_and_one_that_passes_everything() {
    let folder = Folder::new();
    let away = from_source(&folder, "away", &always(1));
    let passes = from_source(&folder, "passes", &always(0));
    let same = recipe(&["compare", &away, &away, "--count", "20"]);
    assert_eq!(same.status.code(), Some(0));
    let text = standard_output(&same);
    assert!(
        text.contains("A has no fikarehu_step: not compared"),
        "{text}"
    );
    assert!(
        text.contains("B has no fikarehu_run: not compared"),
        "{text}"
    );
    assert!(
        text.contains("A has no fikarehu_load_separate: not compared"),
        "{text}"
    );
    assert!(
        text.contains("B has no fikarehu_step_separate: not compared"),
        "{text}"
    );
    assert!(text.contains("\nseparate load: not compared\n"), "{text}");
    assert!(text.ends_with("\nsame\n"), "{text}");
    let differ = recipe(&["compare", &away, &passes, "--count", "20"]);
    assert_eq!(differ.status.code(), Some(1));
    let text = standard_output(&differ);
    let case_a = &format!("recipe: {CASE_A}\n");
    for expected in [
        "difference: check\n",
        case_a,
        "\nA answers: refused 1 (file length outside 12 to 8,192)\n",
        "\nB answers: accepted, bays: 0\n",
        "\nthe model answers: accepted, bays: 1, types: t0\n",
    ] {
        assert!(text.contains(expected), "{text}");
    }
    assert_eq!(standard_error(&differ), "recipe: the libraries differ\n");
}

/// The checker that turns everything away, with more in front of it and at its beginning.
fn away_but(before: &str, first: &str) -> String {
    let name = "struct fikarehu_verdict fikarehu_check";
    let source = always(1).replace(name, &format!("{before}{name}"));
    source.replace("(void)recipe;", first)
}

#[test]
fn a_library_that_reads_beyond_the_recipe() {
    let folder = Folder::new();
    let honest = from_source(&folder, "honest", &always(1));
    let read = "recipe_len = *(volatile const uint8_t *)(recipe + recipe_len);";
    let beyond = from_source(&folder, "beyond", &away_but("", read));
    let expected = format!(
        "recipe: B ({beyond}) was stopped by signal 11 in check (thread 0, out buffer of 0 bytes)\n\
         given: {CASE_A}\n"
    );
    let text = complaint(&["compare", &honest, &beyond, "--count", "5"]);
    assert_eq!(text, expected);
}

#[test]
fn a_library_that_uses_up_the_stack() {
    let folder = Folder::new();
    let honest = from_source(&folder, "honest", &always(1));
    let down = "static int down(int n) {\n\
                    volatile char room[4096];\n\
                    room[n % 4096] = 1;\n\
                    return down(n + 1) + room[0];\n\
                }\n";
    let deep = away_but(down, "recipe_len += down(recipe[0]);");
    let deep = from_source(&folder, "deep", &deep);
    let text = complaint(&["compare", &deep, &honest, "--count", "5"]);
    assert!(
        text.starts_with(&format!(
            "recipe: A ({deep}) was stopped by signal 11 in check"
        )),
        "{text}"
    );
}

#[test]
fn a_library_that_gives_no_answer() {
    let folder = Folder::new();
    let honest = from_source(&folder, "honest", &always(1));
    let for_ever = "for (volatile int i = 0; ; i = 0) {}";
    let loops = from_source(&folder, "loops", &away_but("", for_ever));
    let expected = format!(
        "recipe: B ({loops}) gave no answer within 1 s in check (thread 0, out buffer of 0 bytes)\n\
         given: {CASE_A}\n"
    );
    let text = complaint(&["compare", &honest, &loops, "--limit", "1"]);
    assert_eq!(text, expected);
}

#[test]
fn a_library_that_ends_the_program() {
    let folder = Folder::new();
    let honest = from_source(&folder, "honest", &always(1));
    let leaves = away_but("#include <stdlib.h>\n", "exit(0);");
    let leaves = from_source(&folder, "leaves", &leaves);
    let text = complaint(&["compare", &leaves, &honest]);
    let expected = format!("recipe: A ({leaves}) ended the program in check ");
    assert!(text.starts_with(&expected), "{text}");
}

fn verdict(refusal: u32, bays: u32, first: u8, last: u8) -> String {
    let mut types = [0; 16];
    (types[0], types[15]) = (first, last);
    let answer = VerdictAnswer {
        refusal,
        bays,
        types,
    };
    answer.in_words()
}

fn stepped_in(profile: Profile, outcome: u32, number: u32, length: u64) -> String {
    let answer = SteppedAnswer {
        outcome,
        number,
        length,
    };
    (profile, answer).in_words()
}

fn stepped(outcome: u32, number: u32, length: u64) -> String {
    stepped_in(Profile::Common, outcome, number, length)
}

/// Every field that differs can be read.
#[test]
fn answers_in_words() {
    assert_eq!(verdict(0, 2, 3, 0), "accepted, bays: 2, types: t3 t0");
    let stray = "t0 t0 t0 t0 t0 t0 t0 t0 t0 t0 t0 t0 t0 t0 t0 t7";
    let expected = format!("accepted, bays: 1, types: {stray}");
    assert_eq!(verdict(0, 1, 0, 7), expected);
    let refused = "refused 4 (a type entry breaks its rule)";
    assert_eq!(verdict(4, 0, 0, 0), refused);
    assert_eq!(
        verdict(4, 1, 3, 0),
        format!("{refused}, bays: 1, types: t3")
    );
    assert_eq!(stepped(0, 0, 0), "done");
    assert_eq!(stepped(0, 2, 5), "done, number 2, image of 5 bytes");
    assert_eq!(stepped(1, 7, 30), "rule 7 CELL.EXCH, image of 30 bytes");
    assert_eq!(stepped(2, 5, 0), "waiting for name 5");
    assert_eq!(stepped(3, 14, 0), "refused 14 (number is no thread)");
    assert_eq!(stepped(9, 1, 0), "outcome 9, which there is not, number 1");
    let room = "refused 15 (a rule applies, outcome above 256 names or 4,096 nodes)";
    assert_eq!(stepped(3, 15, 0), room);
    let share = "refused 15 (a rule applies, outcome leaves a bay above its share)";
    assert_eq!(stepped_in(Profile::Separate, 3, 15, 0), share);
    let other = "refused 20 (a bay names another bay's setting)";
    assert_eq!(verdict(20, 0, 0, 0), other);
    assert_eq!(
        verdict(21, 0, 0, 0),
        "refused 21 (a bay starts above its share)"
    );
    let mut ran = RanAnswer::refused(12);
    assert_eq!(ran.in_words(), "refused 12 (out buffer under 13,826 bytes)");
    (ran.stop, ran.turns, ran.buffer, ran.length) = (1, 3, 1, 20);
    let words = "stop 1 (idle), turns 3, buffer 1, image of 20 bytes";
    assert!(ran.in_words().ends_with(&format!("), {words}")));
    ran.refusal = 0;
    assert_eq!(ran.in_words(), words);
}

/// The load of two bays, with and without owners: the byte is told by what it says.
#[test]
fn a_difference_of_owners_is_told() {
    let image = [
        4, 0, 2, 0, 26, 0, 3, 0, 2, 1, 29, 0, 3, 0, 1, 0, 32, 0, 1, 0, 1, 1, 33, 0, 1, 0, 4, 0, 0,
        4, 0, 0, 3, 3,
    ];
    let told = |at: usize| {
        let mut other = image;
        other[at] = 0;
        let outs = [image, other, image].map(|out| out.to_vec());
        let difference = Difference {
            outs,
            ..Difference::default()
        };
        in_full(&difference)
    };
    let last = "9 (the owner of name 1), where A has 01, B has 00, the model has 01\n";
    assert!(told(9).ends_with(last), "{}", told(9));
    assert!(told(20).contains(": 20 (the kind of name 3), where "));
    assert!(told(22).contains(": 22 (the offset of name 3), where "));
    assert!(told(24).contains(": 24 (the length of name 3), where "));
    assert!(told(26).contains(": 26, where "));
    assert!(told(0).contains(": 0, where "));
}

#[test]
fn a_library_without_the_interface() {
    let folder = Folder::new();
    let other = from_source(&folder, "other", "int nothing;\n");
    let text = complaint(&["compare", &other, &other]);
    assert!(text.contains("it has no fikarehu_check"), "{text}");
}

#[cfg(feature = "library")]
mod with_the_library {
    use super::*;

    fn archive() -> String {
        let folder = std::env::var("RATTLE_LIB");
        let folder = folder.unwrap_or_else(|_| {
            let own = repository().join("target/staticlib");
            own.to_string_lossy().into_owned()
        });
        format!("{folder}/libfikarehu.a")
    }

    /// The command that `recipe help compare` tells, with more words before it.
    fn shared(folder: &Folder, name: &str, archive: &str, more: &[&str]) -> String {
        let library = folder.path(name);
        let around = ["-Wl,--whole-archive", archive, "-Wl,--no-whole-archive"];
        let words = [&["-shared"], more, &around, &["-o", &library]].concat();
        call("gcc", &words);
        library
    }

    #[test]
    fn the_library_under_two_names() {
        let folder = Folder::new();
        let one = shared(&folder, "one.so", &archive(), &[]);
        let other = shared(&folder, "other.so", &archive(), &[]);
        let output = recipe(&["compare", &one, &other, "--seed", "3", "--count", "2000"]);
        let text = standard_output(&output);
        assert_eq!(output.status.code(), Some(0), "{text}");
        assert!(text.ends_with("\nsame\n"), "{text}");
        let steps = text.lines().filter(|line| line.starts_with("step:"));
        let compared = steps.into_iter().all(|line| !line.contains("not compared"));
        assert!(compared, "{text}");
        assert!(!text.contains("run:   not compared"), "{text}");
        let separate = text.lines().filter(|line| line.starts_with("separate "));
        assert_eq!(separate.count(), 4, "{text}");
        assert!(!text.contains("not compared"), "{text}");
    }

    /// The library with another function of that name, which may call the honest one.
    fn impostor(folder: &Folder, function: &str, source: &str) -> String {
        let renamed = folder.path("renamed.a");
        let rename = format!("--redefine-sym=fikarehu_{function}=honest_{function}");
        call("objcopy", &[&rename, &archive(), &renamed]);
        let source = folder.file("impostor.c", source);
        let header = format!("-I{}", repository().join("include").display());
        let more = ["-fPIC", header.as_str(), source.as_str()];
        shared(folder, "impostor.so", &renamed, &more)
    }

    /// Runs as the library does, but takes a turn less.
    const TAKES_A_TURN_LESS: &str = "\
#include \"fikarehu.h\"
struct fikarehu_ran honest_run(const uint8_t *, size_t, uint16_t, uint8_t *, size_t, uint8_t *, size_t);
struct fikarehu_ran fikarehu_run(const uint8_t *recipe, size_t recipe_len, uint16_t turns, uint8_t *first,
                                 size_t first_len, uint8_t *second, size_t second_len) {
    return honest_run(recipe, recipe_len, turns > 3 ? turns - 1 : turns, first, first_len, second, second_len);
}
";

    #[test]
    fn an_impostor_that_takes_a_turn_less() {
        let folder = Folder::new();
        let honest = shared(&folder, "honest.so", &archive(), &[]);
        let impostor = impostor(&folder, "run", TAKES_A_TURN_LESS);
        let output = recipe(&["compare", &honest, &impostor, "--count", "500"]);
        let text = standard_output(&output);
        assert_eq!(output.status.code(), Some(1), "{text}");
        for expected in ["difference: run of ", "recipe: 4C46", "A answers: stop "] {
            assert!(text.contains(expected), "{text}");
        }
    }

    /// Loads as the library does, but all names are of bay 0.
    const KNOWS_NO_BAYS: &str = "\
#include \"fikarehu.h\"
struct fikarehu_loaded honest_load(const uint8_t *, size_t, uint8_t *, size_t);
struct fikarehu_loaded fikarehu_load(const uint8_t *recipe, size_t recipe_len, uint8_t *out, size_t out_len) {
    struct fikarehu_loaded loaded = honest_load(recipe, recipe_len, out, out_len);
    for (uint32_t name = 0; name < 2 * loaded.bays; name++) {
        out[FIKAREHU_FIRST_HEAD + FIKAREHU_HEAD_LENGTH * name + 1] = 0;
    }
    return loaded;
}
";

    #[test]
    fn an_impostor_that_knows_no_bays() {
        let folder = Folder::new();
        let honest = shared(&folder, "honest.so", &archive(), &[]);
        let impostor = impostor(&folder, "load", KNOWS_NO_BAYS);
        let output = recipe(&["compare", &honest, &impostor, "--count", "500"]);
        let text = standard_output(&output);
        assert_eq!(output.status.code(), Some(1), "{text}");
        let last = "9 (the owner of name 1), where A has 01, B has 00, the model has 01\n";
        assert!(text.ends_with(last), "{text}");
    }

    /// Loads as separate bays what the common load takes.
    const LETS_OTHERS_IN: &str = "\
#include \"fikarehu.h\"
struct fikarehu_loaded fikarehu_load_separate(const uint8_t *recipe, size_t recipe_len, uint8_t *out, size_t out_len) {
    return fikarehu_load(recipe, recipe_len, out, out_len);
}
";

    /// Steps separate bays by the common limits.
    const KNOWS_NO_SHARES: &str = "\
#include \"fikarehu.h\"
struct fikarehu_stepped fikarehu_step_separate(const uint8_t *image, size_t image_len, uint64_t thread,
                                               uint8_t *out, size_t out_len) {
    return fikarehu_step(image, image_len, thread, out, out_len);
}
";

    #[test]
    fn impostors_of_the_separate_profile() {
        let folder = Folder::new();
        let honest = shared(&folder, "honest.so", &archive(), &[]);
        for (function, source, expected) in [
            (
                "load_separate",
                LETS_OTHERS_IN,
                ["difference: load_separate into ", "\nA answers: refused 20 ("],
            ),
            (
                "step_separate",
                KNOWS_NO_SHARES,
                [
                    "difference: step_separate of thread ",
                    "\nA answers: refused 15 (a rule applies, outcome leaves a bay above its share)\n",
                ],
            ),
        ] {
            let impostor = impostor(&folder, function, source);
            let output = recipe(&["compare", &honest, &impostor, "--count", "500"]);
            let text = standard_output(&output);
            assert_eq!(output.status.code(), Some(1), "{text}");
            for expected in expected {
                assert!(text.contains(expected), "{text}");
            }
        }
    }

    /// Steps as the library does, but for the byte after the image when rule 7 was applied.
    const WRITES_BEYOND: &str = "\
#include \"fikarehu.h\"
struct fikarehu_stepped honest_step(const uint8_t *, size_t, uint64_t, uint8_t *, size_t);
struct fikarehu_stepped fikarehu_step(const uint8_t *image, size_t image_len, uint64_t thread,
                                      uint8_t *out, size_t out_len) {
    struct fikarehu_stepped answer = honest_step(image, image_len, thread, out, out_len);
    if (answer.outcome == FIKAREHU_RULE && answer.number == FIKAREHU_CELL_EXCH && answer.length < out_len) out[answer.length] ^= 1;
    return answer;
}
";

    #[test]
    fn an_impostor_that_writes_beyond_the_image() {
        let folder = Folder::new();
        let honest = shared(&folder, "honest.so", &archive(), &[]);
        let impostor = impostor(&folder, "step", WRITES_BEYOND);
        let output = recipe(&["compare", &honest, &impostor, "--count", "500"]);
        let text = standard_output(&output);
        assert_eq!(output.status.code(), Some(1), "{text}");
        for expected in [
            "difference: step of thread ",
            " of a run\n",
            "recipe: 4C46",
            "image:  ",
        ] {
            assert!(text.contains(expected), "{text}");
        }
        let last = text.lines().last().unwrap_or_default();
        assert!(
            last.starts_with("first differing byte of the out buffer: "),
            "{text}"
        );
        assert_eq!(standard_error(&output), "recipe: the libraries differ\n");
    }
}
