//! Document 02, T-06, "A repeatable test load": what its words say, in rows by hand; and the program
//! prints the model's lines. The variable TEST_LOAD names the program; without it nothing is run.

mod common;
mod program_common;

use common::*;
use model::answers::{Model, Plain};
use model::causes;
use model::command::on_deep_stack;
use model::editions::FIRST;
use model::examples;
use model::format::{hexadecimal, Recipe};
use model::generate::test_loads;
use model::houses::{self, Bay};
use model::image::{names_of_kind, read_image};
use model::kinds::THREAD;
use model::limits::{MAX_DRAWS, MAX_FILE, MAX_NODES};
use model::plain;
use model::test_load::{drawn_from, picked, printed, Input, TestLoad};
use std::collections::BTreeSet;

/// What is printed for that seed, number of draws and recipe. The plain twin's lines are the same.
fn lines(seed: u32, count: u16, recipe: &[u8]) -> String {
    let input = Input {
        seed,
        count,
        recipe,
    };
    let text = printed_for(&input.bytes());
    let plain = plain::printed(&Plain, &input.bytes());
    assert_eq!(plain, text, "the plain twin");
    text
}

fn printed_for(bytes: &[u8]) -> String {
    on_deep_stack(|| printed(&Model, bytes))
}

/// The states that follow a seed.
fn states(seed: u32, count: usize) -> Vec<u32> {
    let states = std::iter::successors(Some(seed), |state| Some(drawn_from(*state)));
    states.skip(1).take(count).collect()
}

/// "from 1 the first draw is 270,369"
#[test]
fn the_first_draw_from_1() {
    assert_eq!(drawn_from(1), 270_369);
    // 1 xor 8,192 is 8,193; its right shift by 17 is 0; 8,193 xor 262,176 is 270,369
    assert_eq!(8_193 ^ (8_193 << 5), 270_369);
}

#[test]
fn draws_that_follow() {
    #[rustfmt::skip]
    let followed = [
        (1, [270_369, 67_634_689, 2_647_435_461, 307_599_695, 2_398_689_233]),
        (7, [1_892_583, 470_389_255, 3_882_205_507, 3_069_989_445, 2_854_842_367]),
        (u32::MAX, [253_983, 4_228_382_207, 1_958_451_267, 4_056_713_434, 2_049_502_865]),
    ];
    for (seed, expected) in followed {
        assert_eq!(states(seed, 5), expected);
    }
}

/// "bits beyond 32 dropped": of each shift, so that none comes back by the right shift. No other state
/// leads to 0.
#[test]
fn bits_beyond_32_are_dropped() {
    // the left shift by 13 leaves nothing of bit 31; bit 31 goes to bit 14, and that to bit 19
    assert_eq!(drawn_from(1 << 31), 1 << 31 | 1 << 14 | 1 << 19);
    assert_eq!(drawn_from(0), 0);
    assert!(states(1, 100_000).iter().all(|state| *state != 0));
}

/// "counted in ascending number from 0"; the draw is a number without a sign.
#[test]
fn threads_are_counted_from_0() {
    let threads = [9, 10, 17];
    assert_eq!(
        [0, 1, 2, 3].map(|draw| picked(draw, &threads)),
        [9, 10, 17, 9]
    );
    assert_eq!(picked(u32::MAX, &threads), 9);
    assert_eq!(picked(1 << 31, &threads), 17);
    assert_eq!(picked(u32::MAX, &[4]), 4);
}

/// "the seed in four bytes and the number of draws in two, little-endian, then the recipe; absent bytes
/// of these six count as 0"
#[test]
fn the_front_of_the_input() {
    let read = |bytes: &[u8]| {
        let input = Input::read(bytes);
        (input.seed, input.count, input.recipe.to_vec())
    };
    let whole = [0x01, 0x02, 0x03, 0x84, 0x05, 0x86, 0x4C, 0x46];
    assert_eq!(read(&whole), (0x8403_0201, 0x8605, vec![0x4C, 0x46]));
    assert_eq!(read(&whole[..6]), (0x8403_0201, 0x8605, vec![]));
    assert_eq!(read(&whole[..5]), (0x8403_0201, 0x05, vec![]));
    assert_eq!(read(&whole[..4]), (0x8403_0201, 0, vec![]));
    assert_eq!(read(&whole[..2]), (0x0201, 0, vec![]));
    assert_eq!(read(&[]), (0, 0, vec![]));
    assert_eq!(Input::read(&whole).bytes(), whole);
}

/// Cases A, B and C of document 01. In case C rule 5 makes name 2 a thread, and a draw that is odd picks
/// it.
#[test]
fn the_cases_of_document_01() {
    let case_a = recipe(A, "03");
    let case_b = recipe(T5, "02 02 06 04 09 00 04 FA 00");
    let case_c = recipe(T7, "02 08 06 01 05 01 04 02 00 00 00 01");
    for seed in [1, 7, u32::MAX] {
        assert_eq!(lines(seed, 2, &case_a), "1 done 0\n1 done 0\n");
        assert_eq!(lines(seed, 3, &case_b), "1 step 7\n1 done 0\n1 done 0\n");
        let four = "1 step 4\n1 step 1\n1 step 1\n1 step 5\n";
        assert_eq!(lines(seed, 4, &case_c), four);
        let more = states(seed, 40).into_iter().skip(4);
        let more = more.map(|state| ["1 done 0\n", "2 done 0\n"][state as usize % 2]);
        let more: String = more.collect();
        assert_eq!(lines(seed, 40, &case_c), format!("{four}{more}"));
    }
}

/// Threads 9 to 17, by the draws from 1 modulo 9; those that are done count too.
#[test]
fn nine_bays() {
    let file = examples::file_of("nine-bays");
    let threads = [9, 13, 15, 17, 17, 16, 10, 15, 14, 13, 15, 17];
    let by_draws = states(1, 12).into_iter().map(|state| 9 + state % 9);
    assert_eq!(by_draws.collect::<Vec<u32>>(), threads);
    let mut done = BTreeSet::new();
    let expected = threads.map(|thread| match done.insert(thread) {
        true => format!("{thread} step 7\n"),
        false => format!("{thread} done 0\n"),
    });
    assert_eq!(lines(1, 12, &file), expected.concat());
}

/// Bay 1 waits for a thread that waits for itself: each number is the awaited name.
#[test]
fn waiting_lines() {
    let file = houses::house(FIRST, &[Bay::Waits]).write();
    let text = lines(1, 60, &file);
    let last: BTreeSet<&str> = text.lines().rev().take(20).collect();
    assert_eq!(last, BTreeSet::from(["1 waiting 2", "2 waiting 2"]));
}

/// "A refused or idle draw keeps the image": of two bays one lacks room, and the other goes as far as it
/// can.
#[test]
fn refused_lines() {
    let bays = [Bay::Doubles(11), Bay::Steps(3)];
    let file = houses::house(FIRST, &bays).write();
    let text = lines(5, 60, &file);
    let of = |line: &str| text.lines().filter(|own| *own == line).count();
    assert_eq!(of("2 step 1"), 9);
    assert_eq!(of("3 step 1"), 3);
    assert_eq!(of("2 refused 15") + of("3 done 0"), 60 - 12);
    assert!(of("2 refused 15") > 10 && of("3 done 0") > 10, "{text}");
}

/// "A refusal prints only its verdict line"; "tried after the recipe is accepted", whatever the number
/// of draws.
#[test]
fn refusals() {
    let accepted = recipe(A, "03");
    let refused = recipe(A, "02 03 03");
    for count in [0, 1, MAX_DRAWS, u16::MAX] {
        assert_eq!(lines(0, count, &accepted), "verdict 18\n");
        assert_eq!(lines(0, count, &refused), "verdict 9\n");
        assert_eq!(lines(1, count, &refused), "verdict 9\n");
        assert_eq!(lines(0, count, &[]), "verdict 1\n");
        assert_eq!(lines(1, count, &[]), "verdict 1\n");
    }
    assert_eq!(causes::SEED, 18);
    for length in 0..=6 {
        assert_eq!(printed_for(&vec![1; length]), "verdict 1\n");
    }
}

/// A recipe that is too long is refused, and not cut.
#[test]
fn long_recipes() {
    let mut file = recipe(A, "03");
    for (length, number) in [(MAX_FILE, 3), (MAX_FILE + 1, 1), (9_000, 1)] {
        file.resize(length, 0);
        assert_eq!(lines(1, 1, &file), format!("verdict {number}\n"));
    }
}

/// "a number above 10,000 as 10,000"; with no draws there is no line.
#[test]
fn numbers_of_draws() {
    let file = recipe(A, "03");
    for (count, expected) in [
        (0, 0),
        (1, 1),
        (9_999, 9_999),
        (10_000, 10_000),
        (10_001, 10_000),
        (u16::MAX, 10_000),
    ] {
        assert_eq!(lines(1, count, &file), "1 done 0\n".repeat(expected));
    }
}

/// The images after each draw from 1.
fn images(recipe: &Recipe, count: u16) -> Vec<Vec<u8>> {
    let input = Input {
        seed: 1,
        count,
        recipe: &recipe.write(),
    };
    let mut load = TestLoad::start(&Plain, &input).expect("it is accepted");
    let next = || load.next().map(|_| load.image().to_vec());
    std::iter::from_fn(next).collect()
}

/// The houses that fill an image do so: with nodes, with names, with threads.
#[test]
fn full_houses() {
    let nodes = |image: &Vec<u8>| read_image(image).expect("an image").nodes();
    let fullest = images(&houses::fullest(), 500);
    let most = on_deep_stack(|| fullest.iter().map(nodes).max());
    assert_eq!(most, Some(MAX_NODES));
    let all_names = images(&houses::all_names(), 2_500);
    assert_eq!(all_names[2_499][..2], [0, 1]);
    let crowd = images(&houses::crowd(), 5_000);
    assert_eq!(names_of_kind(&crowd[4_999], THREAD).len(), 255);
}

/// What came: each line without its thread, and of one that waits without the name.
fn came<'t>(texts: impl Iterator<Item = &'t String>) -> BTreeSet<String> {
    let what = |line: &str| match line.split(' ').collect::<Vec<&str>>()[..] {
        [_, "waiting", _] => "waiting".to_owned(),
        [_, word, number] => format!("{word} {number}"),
        _ => line.to_owned(),
    };
    texts.flat_map(|text| text.lines().map(what)).collect()
}

/// Every word, rule and verdict is among what the program is compared on.
#[test]
fn the_inputs_come_to_everything() {
    let texts: Vec<String> = test_loads::inputs()
        .iter()
        .map(|bytes| printed_for(bytes))
        .collect();
    let verdicts = (1..=11)
        .chain([18, 19])
        .map(|number| format!("verdict {number}"));
    let rules = (1..=9).map(|rule| format!("step {rule}"));
    let others = ["done 0", "waiting", "refused 15"].map(str::to_owned);
    let all: BTreeSet<String> = verdicts.chain(rules).chain(others).collect();
    assert_eq!(came(texts.iter()), all);
    assert!(texts.iter().any(String::is_empty), "no draws");
}

#[test]
fn the_program_prints_the_lines_of_the_model() {
    if let Some(program) = std::env::var_os("TEST_LOAD") {
        for bytes in test_loads::inputs() {
            let expected = printed_for(&bytes);
            let found = program_common::written(&program, &bytes);
            let input = hexadecimal(&bytes);
            assert!(found == expected, "input {input}\n{found}");
        }
    }
}

/// The same on many more, of which the plain twin says what is right.
#[test]
#[ignore = "some minutes long"]
fn the_program_prints_the_lines_of_the_plain_twin() {
    let program = std::env::var_os("TEST_LOAD").expect("TEST_LOAD names the program");
    let mut lines = 0;
    for bytes in test_loads::many(20_261_117, 20_000) {
        let found = program_common::written(&program, &bytes);
        let expected = plain::printed(&Plain, &bytes);
        assert!(found == expected, "input {}", hexadecimal(&bytes));
        lines += found.lines().count();
    }
    println!("{lines} lines");
}

/// The plain twin prints the same.
#[test]
fn the_plain_twin_prints_the_lines_of_the_model() {
    for bytes in test_loads::inputs() {
        assert_eq!(plain::printed(&Plain, &bytes), printed_for(&bytes));
    }
}

/// The library's steps come to the same lines.
#[cfg(feature = "library")]
#[test]
fn the_library_comes_to_the_lines_of_the_model() {
    for bytes in test_loads::inputs() {
        let found = printed(&model::ffi::Library, &bytes);
        assert_eq!(found, printed_for(&bytes));
    }
}
