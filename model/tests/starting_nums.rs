//! Document 02, T-07, "Starting values in the file": edition 3 and refusal 19.

mod common;

use common::*;
use model::answers::{Implementation, LoadedAnswer, Model, Plain, RanAnswer};
use model::causes;
use model::command::on_deep_stack;
use model::draw::Draw;
use model::editions::{FIRST, SECOND, THIRD};
use model::format::{bytes_of_hexadecimal, hexadecimal, Recipe};
use model::generate::mutants::giant;
use model::generate::recipes::{at_a_limit, largest, small, well_typed, with_faults};
use model::limits::{MAX_FILE, MAX_IMAGE};
use model::load::starting_image;
use model::test_load::{printed, Input};
use model::verdict::{verdict, Verdict};

/// What load answers, the model's and the plain twin's, and the out buffer after it.
fn loaded(file: &[u8], room: usize) -> (LoadedAnswer, Vec<u8>) {
    let (mut out, mut plain_out) = (vec![7; room], vec![7; room]);
    let answer = Model.load(file, &mut out).unwrap();
    assert_eq!(Plain.load(file, &mut plain_out), Some(answer));
    assert!(
        out == plain_out,
        "the plain twin leaves another out buffer: {}",
        hexadecimal(file)
    );
    (answer, out)
}

/// The image that is loaded.
fn image_of_file(file: &[u8]) -> Vec<u8> {
    let (answer, mut out) = loaded(file, MAX_IMAGE);
    assert_eq!(answer.refusal, 0);
    out.truncate(answer.length as usize);
    out
}

/// So many bays of unit with a starting part of so many bytes.
fn units(bays: usize, starting: usize) -> Vec<u8> {
    recipe_3(A, &"01".repeat(starting), &vec!["03"; bays])
}

/// "Its n runs from 3 to 18, else refusal 2"; editions 1 and 2 keep 2 to 17.
#[test]
fn the_range_of_n() {
    assert_eq!(number(&file_of(3, A, &[])), 2);
    assert_eq!(number(&units(0, 2)), 2);
    for bays in 1..=16 {
        assert_eq!(number(&units(bays, 2 * bays)), 0, "{bays} bays");
        assert_eq!(Model.check(&units(bays, 2 * bays)).bays, bays as u32);
    }
    assert_eq!(number(&units(17, 34)), 2);
    for n in [0, 1, 2, 19, 255] {
        let mut file = units(1, 2);
        file[3] = n;
        assert_eq!(number(&file), 2, "{n} parts");
    }
    for edition in [FIRST, SECOND] {
        let of = |bays: usize| file_of(edition.number, A, &vec!["03"; bays]);
        assert_eq!(number(&of(0)), 2);
        assert_eq!(number(&of(1)), 0);
        assert_eq!(number(&of(16)), 0);
        assert_eq!(number(&of(17)), 2);
    }
}

/// "a starting part whose length is not twice the number of bays"; of no byte it is refused 3, for "No
/// length is zero."
#[test]
fn the_length_of_the_starting_part() {
    for bays in [1, 2, 3, 16] {
        for length in (0..=2 * bays + 5).chain([64, 255, 256, 768, 7_000]) {
            let due = match length {
                0 => causes::LAYOUT,
                _ if length == 2 * bays => 0,
                _ => causes::STARTING,
            };
            let found = number(&units(bays, length));
            assert_eq!(found, due, "{length} bytes for {bays} bays");
        }
    }
}

/// "tried after 11", over the whole file: whatever else is wrong is told.
#[test]
fn every_other_cause_comes_first() {
    let deep = nested(101);
    let causes: [(&str, &str, u32); 8] = [
        ("000000 010000 020000", "03", 4),
        (A, "03 03", 5),
        (UNIT_FUNCTION, &deep, 6),
        (A, "09 02", 7),
        (T7, "07 03", 8),
        (A, "02 03 03", 9),
        (T7, "01 04 03", 10),
        (T7, "01 03 03", 11),
    ];
    for (table, term, cause) in causes {
        for starting in ["0000 0000", "00", "0000", "0000 00", "0000 0000 0000"] {
            for terms in [["03", term], [term, "03"]] {
                let file = recipe_3(table, starting, &terms);
                assert_eq!(number(&file), cause, "{starting}");
            }
        }
    }
    assert_eq!(number(&recipe_3(T7, "00", &["03", "03"])), 19);
}

/// The bays number the parts less two, whatever the starting part's length.
#[test]
fn names_go_by_n() {
    for (starting, accepted) in [
        ("0000 0000", 0),
        ("0000", 19),
        ("0000 0000 0000", 19),
        ("00", 19),
    ] {
        let of = |term: &str| number(&recipe_3(A, starting, &["03", term]));
        assert_eq!(of("09 00"), accepted, "{starting}");
        assert_eq!(of("09 01"), accepted, "{starting}");
        assert_eq!(of("09 02"), 7, "{starting}");
        assert_eq!(of("09 03"), 7, "{starting}");
    }
}

/// "two bytes for each bay, its starting num": little-endian, in the order of the bays.
#[test]
fn each_bay_starts_at_its_num() {
    let file = recipe_3(A, "FA00 0100 0001 FFFF", &["03"; 4]);
    assert_eq!(verdict(&file), Verdict::Accepted(vec![0; 4]));
    let heads = "0800 020032000300 020135000300 020238000300 02033B000300 \
                 01003E000100 01013F000100 010240000100 010341000100";
    let expressions = "04FA00 040100 040001 04FFFF 03030303";
    assert_eq!(
        image_of_file(&file),
        bytes_of_hexadecimal(&format!("{heads} {expressions}"))
    );
}

/// A num may be 0 to 65,535.
#[test]
fn every_starting_num() {
    for num in 0..=u16::MAX {
        let [low, high] = num.to_le_bytes();
        let file = recipe_3(A, &hexadecimal(&[low, high]), &["03"]);
        let image = starting_image(&file).expect("accepted");
        assert_eq!(image[14..17], [4, low, high]);
    }
}

/// A part of two bytes may be a starting num or a term, as byte 2 says.
#[test]
fn the_edition_says_what_the_second_part_is() {
    let of = |edition: u8| file_of(edition, A, &["0901", "03"]);
    for edition in [FIRST, SECOND] {
        let answer = Model.check(&of(edition.number));
        assert_eq!((answer.refusal, answer.bays, answer.types[0]), (0, 2, 2));
    }
    let answer = Model.check(&of(THIRD.number));
    assert_eq!((answer.refusal, answer.bays, answer.types[0]), (0, 1, 0));
    assert_eq!(image_of_file(&of(THIRD.number))[14..17], [4, 9, 1]);
    assert_eq!(number(&of(4)), 2);
}

/// "Edition 3 is edition 2": with pairs and lists.
#[test]
fn edition_3_has_what_edition_2_has() {
    // 3: many pair of num and num
    let table = format!("{A} 060101");
    let file = recipe_3(&table, "0500", &["0A 03 04 01 00 04 02 00"]);
    assert_eq!(verdict(&file), Verdict::Accepted(vec![3]));
}

/// Check 1 to 11, 19; load and run 12 first; the test load 18 last.
#[test]
fn the_order_of_the_calls() {
    let short = MAX_IMAGE - 1;
    let wrong = units(2, 3);
    assert_eq!(number(&wrong), 19);
    assert_eq!(loaded(&wrong, short).0.refusal, 12);
    let (answer, out) = loaded(&wrong, MAX_IMAGE);
    let refused = LoadedAnswer {
        refusal: causes::STARTING,
        ..LoadedAnswer::default()
    };
    assert_eq!(answer, refused);
    assert!(out.iter().all(|byte| *byte == 7), "a refusal writes");
    let ran = |lengths: [usize; 2]| {
        let [mut first, mut second] = lengths.map(|length| vec![7; length]);
        let answer = Model.run(&wrong, 3, &mut first, &mut second);
        let (mut plain_first, mut plain_second) = (first.clone(), second.clone());
        let plain = Plain.run(&wrong, 3, &mut plain_first, &mut plain_second);
        assert_eq!(plain, answer);
        let kept = [first, second, plain_first, plain_second].concat();
        assert!(kept.iter().all(|byte| *byte == 7), "a refusal writes");
        answer.unwrap()
    };
    assert_eq!(ran([MAX_IMAGE; 2]), RanAnswer::refused(19));
    assert_eq!(ran([short, MAX_IMAGE]), RanAnswer::refused(12));
    assert_eq!(ran([MAX_IMAGE, short]), RanAnswer::refused(12));
}

/// "tried after 11 and before 18"
#[test]
fn the_order_of_the_test_load() {
    let lines = |seed: u32, recipe: &[u8]| {
        let input = Input {
            seed,
            count: 1,
            recipe,
        };
        printed(&Model, &input.bytes())
    };
    let once = recipe_3(T7, "00", &["01 03 03"]);
    for seed in [0, 1] {
        assert_eq!(lines(seed, &once), "verdict 11\n");
        assert_eq!(lines(seed, &units(1, 3)), "verdict 19\n");
        assert_eq!(lines(seed, &units(1, 0)), "verdict 3\n");
    }
    assert_eq!(lines(0, &units(1, 2)), "verdict 18\n");
    assert_eq!(lines(1, &units(1, 2)), "1 done 0\n");
}

/// The edition 3 file of zeros, of a recipe of edition 2.
fn twin(recipe: &Recipe) -> Recipe {
    Recipe {
        edition: THIRD.number,
        starts: THIRD.zeros(recipe.terms.len()),
        ..recipe.clone()
    }
}

/// "an edition 3 file of zeros loads the same image as its edition 2 twin": the same answer to every call,
/// accepted or refused.
#[test]
fn a_file_of_zeros_answers_as_its_twin() {
    let mut draw = Draw::new(7);
    let mut counts = [0; 2];
    for round in 0..3_000 {
        let make = [well_typed, with_faults, small, small, at_a_limit][round % 5];
        let recipe = Recipe {
            edition: SECOND.number,
            ..make(&mut draw)
        };
        let (second, third) = (recipe.write(), twin(&recipe).write());
        assert_eq!(third.len(), second.len() + 4 + 2 * recipe.terms.len());
        assert_eq!(Model.check(&third), Model.check(&second));
        assert!(loaded(&third, MAX_IMAGE) == loaded(&second, MAX_IMAGE));
        counts[usize::from(Model.check(&third).refusal != 0)] += 1;
    }
    assert!(counts.iter().all(|count| *count > 300), "{counts:?}");
}

/// The nums alone make the difference: what else is loaded is the same.
#[test]
fn other_nums_change_the_settings_alone() {
    let mut draw = Draw::new(8);
    let recipes = std::iter::repeat_with(|| well_typed(&mut draw));
    let recipes = recipes.filter(|recipe| recipe.edition == THIRD.number);
    let accepted = recipes.filter(|recipe| verdict(&recipe.write()).number() == 0);
    for recipe in accepted.take(500) {
        let mut expected = image_of_file(&twin(&recipe).write());
        let bays = recipe.terms.len();
        let settings = 2 + 6 * 2 * bays;
        for (bay, num) in recipe.starts.iter().enumerate() {
            let at = settings + 3 * bay + 1;
            expected[at..at + 2].copy_from_slice(&num.to_le_bytes());
        }
        assert!(image_of_file(&recipe.write()) == expected);
    }
}

/// The largest accepted recipe has a twin, and so has every accepted one: 3,948 bytes are far from 8,192.
#[test]
fn the_largest_recipe_has_a_twin() {
    let mut draw = Draw::new(9);
    let mut recipes = std::iter::repeat_with(|| largest(&mut draw));
    let found = recipes.find(|recipe| recipe.edition == SECOND.number);
    let recipe = found.expect("one of edition 2");
    let third = twin(&recipe).write();
    assert_eq!(third[3], 18);
    assert_eq!(number(&third), 0);
    assert!(image_of_file(&third) == image_of_file(&recipe.write()));
    // 18 pairs, 256 entries, 16 starting nums and 1,024 nodes of at most three bytes
    assert!(third.len() <= 4 + 4 * 18 + 3 * 256 + 2 * 16 + 3 * 1_024);
}

/// A file near 8,192 bytes has a twin that is refused 1.
#[test]
fn the_twin_of_a_long_file_is_too_long() {
    let of_length = |length: usize| {
        let nodes = length - 12 - 9;
        let term = "02".repeat(nodes / 2) + &"03".repeat(nodes - nodes / 2);
        (
            file_of(SECOND.number, A, &[&term]),
            recipe_3(A, "0000", &[&term]),
        )
    };
    on_deep_stack(|| {
        for length in [MAX_FILE - 8, MAX_FILE - 6, MAX_FILE - 4, MAX_FILE] {
            let (second, third) = of_length(length);
            assert_eq!((second.len(), third.len()), (length, length + 6));
            assert_eq!(number(&second), 6);
            let due = if length + 6 <= MAX_FILE { 6 } else { 1 };
            assert_eq!(number(&third), due, "{length} bytes");
        }
    });
}

/// Files of about 8,192 bytes of edition 3 too, the plain twin's answers being the same.
#[test]
fn giants_of_edition_3() {
    let mut draw = Draw::new(10);
    let giants = std::iter::repeat_with(|| giant(&mut draw));
    let giants: Vec<Vec<u8>> = giants.filter(|file| file[2] == 3).take(300).collect();
    on_deep_stack(|| {
        let numbers: Vec<u32> = giants.iter().map(|file| number(file)).collect();
        for cause in [1, 5, 6] {
            assert!(numbers.contains(&cause), "{numbers:?}");
        }
    });
}
