//! The proved library gives the model's answers: on the examples, on bay cases, on random recipes.
#![cfg(feature = "library")]

mod common;

use common::*;
use model::answers::{Implementation, Model, RULE};
use model::command::on_deep_stack;
use model::comparison::Comparison;
use model::draw::Draw;
use model::editions::FIRST;
use model::examples;
use model::ffi::Library;
use model::houses::{self, Bay, Makes};
use model::limits::MAX_IMAGE;
use model::tags;

#[test]
fn on_random_recipes() {
    let difference = on_deep_stack(|| {
        let mut comparison = Comparison::new(&Library);
        let result = comparison.compare(10, 5_000);
        println!("{}", comparison.counts);
        let counts = &comparison.counts;
        assert!(counts.runs[..13].iter().all(|count| *count > 0), "{counts}");
        assert!(counts.stops.iter().all(|count| *count > 5), "{counts}");
        let separate = &counts.separate;
        assert!(separate.loads[20..].iter().all(|count| *count > 20));
        assert!(separate.rules[1..].iter().all(|count| *count > 10));
        assert!(separate.over_share > 200, "{counts}");
        result.err().map(|difference| difference.0)
    });
    assert_eq!(difference, None);
}

/// Document 02, T-04: houses that go on for ever, that wait, and 255 threads that all go, for no turn,
/// one, many and the most.
#[test]
fn on_houses() {
    let houses = [
        houses::one_moves(),
        houses::all_move(),
        houses::most_wait(),
        houses::crowd(),
    ];
    let difference = on_deep_stack(|| {
        let mut comparison = Comparison::new(&Library);
        let mut draw = Draw::new(11);
        for house in houses {
            for turns in [0, 1, 40, 1_400, 1_401] {
                comparison.compare_runner(&mut draw, &house.write(), turns)?;
            }
        }
        let alone = houses::house(FIRST, &[Bay::Loops(Makes::Nothing)]);
        comparison.compare_runner(&mut draw, &alone.write(), u16::MAX)
    });
    assert_eq!(difference.err().map(|difference| difference.0), None);
}

#[test]
fn on_the_examples() {
    for example in examples::all() {
        let file = example.file();
        assert_eq!(Library.check(&file), Model.check(&file), "{}", example.name);
    }
}

#[test]
fn on_the_limits() {
    let files = [
        recipe(UNIT_FUNCTION, &nested(100)),
        recipe(UNIT_FUNCTION, &nested(101)),
        with_nodes(1_024),
        with_nodes(1_025),
        recipe_of(A, &["03"; 16]),
        recipe_of(A, &["03"; 17]),
        Vec::new(),
    ];
    for file in files {
        assert_eq!(Library.check(&file), Model.check(&file));
    }
}

/// Document 02, T-01, "A num may be 0 to 65,535 in recipes and images": each, from the file into
/// the setting.
#[test]
fn on_every_num() {
    let mut image = vec![0; MAX_IMAGE];
    let mut after = vec![0; MAX_IMAGE];
    for value in 0..=u16::MAX {
        let [low, high] = value.to_le_bytes();
        let file = recipe(T5, &format!("02 02 06 04 09 00 04 {low:02X} {high:02X}"));
        let loaded = Library.load(&file, &mut image).expect("loads");
        assert_eq!((loaded.refusal, loaded.types[0]), (0, 1), "{value}");
        let handed = &image[..loaded.length as usize];
        let stepped = Library.step(handed, 1, &mut after).expect("steps");
        assert_eq!((stepped.outcome, stepped.number), (RULE, 7), "{value}");
        assert_eq!(after[14..17], [tags::NUM, low, high], "{value}");
    }
}
