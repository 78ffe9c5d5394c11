//! The place of a refusal: its number is the verdict's, and it is told for every file.

use model::causes;
use model::command::on_deep_stack;
use model::draw::Draw;
use model::examples;
use model::format::bytes_of_hexadecimal;
use model::generate::{recipes, separate};
use model::limits::MAX_IMAGE;
use model::load::{load_in, Loaded};
use model::profile::Profile;
use model::tool::faults::{fault, fault_in, Fault, Part, Place};
use model::tool::show::shown;
use model::tool::text::spelling::UNICODE;
use model::verdict::verdict;
use std::collections::BTreeSet;

#[test]
fn the_number_is_the_verdicts() {
    on_deep_stack(|| {
        let mut draw = Draw::new(44);
        let mut came = BTreeSet::new();
        for _ in 0..20_000 {
            let file = recipes::file(&mut draw);
            let number = verdict(&file).number();
            let found = fault(&file);
            assert_eq!(found.as_ref().map_or(0, |fault| fault.number), number);
            let inside = found.map_or(true, |fault| fault.offset <= file.len());
            assert!(inside, "a place outside the file");
            came.insert(number);
        }
        let all = (0..=causes::BAY_ONCE).chain([causes::STARTING]);
        assert!(came.iter().copied().eq(all), "{came:?}");
    });
}

/// In the separate profile it is the loader's.
#[test]
fn the_number_is_the_separate_loaders() {
    on_deep_stack(|| {
        let mut draw = Draw::new(46);
        let mut came = BTreeSet::new();
        for turn in 0..10_000 {
            let file = match turn % 2 {
                0 => recipes::file(&mut draw),
                _ => separate::file(&mut draw),
            };
            let number = match load_in(Profile::Separate, &file, &mut [0; MAX_IMAGE]) {
                Loaded::Refused(number) => number,
                Loaded::Accepted(..) => 0,
            };
            let found = fault_in(Profile::Separate, &file, &[]);
            assert_eq!(found.as_ref().map_or(0, |fault| fault.number), number);
            let inside = found.map_or(true, |fault| fault.offset <= file.len());
            assert!(inside, "a place outside the file");
            came.insert(number);
        }
        let all = (0..=causes::BAY_ONCE).chain(causes::STARTING..=causes::SHARE);
        assert!(came.iter().copied().eq(all), "{came:?}");
    });
}

#[test]
fn every_file_can_be_shown() {
    on_deep_stack(|| {
        let mut draw = Draw::new(45);
        for _ in 0..3_000 {
            let file = recipes::file(&mut draw);
            assert!(shown("a file", &file, &UNICODE).starts_with("# a file: "));
        }
        for length in 0..40 {
            let bytes: Vec<u8> = (0..length).map(|_| draw.byte()).collect();
            assert!(shown("a file", &bytes, &UNICODE).starts_with("# a file: refused"));
        }
    });
}

fn fault_of(name: &str) -> Fault {
    fault(&examples::file_of(name)).expect("a refused example")
}

#[test]
fn places_of_the_examples() {
    let place = |name: &str| (fault_of(name).place.to_string(), fault_of(name).offset);
    let expected = [
        ("refused-4", "the type table, entry 3", 21),
        ("refused-5", "bay 0, argument", 23),
        ("refused-6", "bay 0, argument×98.function.body", 517),
        ("refused-7", "bay 0, root", 21),
        ("refused-8", "bay 0, root", 30),
        ("refused-9", "bay 0, function", 22),
        ("refused-10", "bay 0, body.body.function", 35),
        ("refused-11", "bay 0, root", 24),
        ("refused-19", "the starting part", 29),
    ];
    for (name, text, offset) in expected {
        assert_eq!(place(name), (text.to_owned(), offset), "{name}");
    }
}

/// The first name of another's setting, and the first node above the share.
#[test]
fn places_of_the_separate_examples() {
    let found = |name: &str| {
        let file = examples::file_of(name);
        assert_eq!(fault(&file), None, "in the common profile");
        let found = fault_in(Profile::Separate, &file, &[]).expect("a refused example");
        (found.place.to_string(), found.offset, found.found)
    };
    let (place, offset, words) = found("refused-20");
    assert_eq!((&place[..], offset), ("bay 1, function.argument", 44));
    assert_eq!(words, "setting0, and bay 1 may name setting1 only");
    let (place, offset, words) = found("refused-21");
    assert_eq!((&place[..], offset), ("bay 1, argument×85", 510));
    assert_eq!(
        words,
        "bay 1 has 256 nodes and 1 in its setting; with 16 bays each one's share is 256"
    );
    let tenants = examples::file_of("tenants");
    assert_eq!(fault_in(Profile::Separate, &tenants, &[]), None);
}

fn told(hexadecimal: &str) -> (u32, Place, usize, String) {
    let found = fault(&bytes_of_hexadecimal(hexadecimal)).expect("a refused file");
    (found.number, found.place, found.offset, found.found)
}

const TABLE: &str = "000000 010000 020100";

#[test]
fn places_in_the_bytes() {
    let whole = format!("4C460102 0C000900 15000100 {TABLE} 03");
    assert_eq!(fault(&bytes_of_hexadecimal(&whole)), None);
    let (number, place, offset, found) = told("4C46");
    assert_eq!((number, place, offset), (1, Place::File, 0));
    assert_eq!(found, "the file has 2 bytes");
    let (number, place, offset, found) = told(&whole.replace("4C4601", "4C4604"));
    assert_eq!((number, place, offset), (2, Place::Opening, 2));
    assert_eq!(found, "the edition is 04, not 01, 02 or 03");
    let (number, place, offset, found) = told(&whole.replace("15000100", "16000100"));
    assert_eq!((number, place, offset), (3, Place::Pair(Part::Bay(0)), 8));
    assert_eq!(
        found,
        "the part's offset is 22, but the bytes before it end at 21"
    );
    let (number, place, offset, found) = told(&format!("{whole} 03"));
    assert_eq!((number, place, offset), (3, Place::Pair(Part::Bay(0)), 22));
    assert_eq!(
        found,
        "the last part ends at byte 22, and 1 more bytes follow"
    );
    let cut = format!("4C460102 0C000900 15000300 {TABLE} 020302");
    let (number, place, offset, found) = told(&cut);
    let path = "argument.function".to_owned();
    assert_eq!((number, place, offset), (5, Place::Node(0, 3, path), 24));
    assert_eq!(found, "the part ends where a node should begin");
}

#[test]
fn places_in_the_bytes_of_edition_3() {
    let whole = format!("4C460303 10000900 19000200 1B000100 {TABLE} FA00 03");
    assert_eq!(fault(&bytes_of_hexadecimal(&whole)), None);
    let (number, place, offset, found) = told(&whole.replace("4C460303", "4C460302"));
    assert_eq!((number, place, offset), (2, Place::Opening, 3));
    assert_eq!(
        found,
        "n, the number of parts, is 2; in edition 3 it is 3 to 18"
    );
    let (number, place, offset, found) = told(&whole.replace("4C460303", "4C460212"));
    assert_eq!((number, place, offset), (2, Place::Opening, 3));
    assert_eq!(
        found,
        "n, the number of parts, is 18; in edition 2 it is 2 to 17"
    );
    let none = format!("4C460303 10000900 19000000 19000100 {TABLE} 03");
    let (number, place, offset, found) = told(&none);
    assert_eq!(place.to_string(), "the pair of the starting part");
    assert_eq!(
        (number, place, offset),
        (3, Place::Pair(Part::Starting), 10)
    );
    assert_eq!(found, "the part's length is 0");
    let (number, place, offset, _) = told(&whole.replace("1B000100", "1C000100"));
    assert_eq!(place.to_string(), "the pair of bay 0");
    assert_eq!((number, place, offset), (3, Place::Pair(Part::Bay(0)), 12));
    let (number, place, offset, _) = told(&whole.replace("FA00 03", "FA00 0E"));
    let path = "root".to_owned();
    assert_eq!((number, place, offset), (5, Place::Node(0, 0, path), 27));
    let short = format!("4C460303 10000900 19000100 1A000100 {TABLE} FA 03");
    let (number, place, offset, found) = told(&short);
    assert_eq!((number, place, offset), (19, Place::Starting, 25));
    assert_eq!(found, "the part's length is 1; b is 1, so it should be 2");
}

/// A part of another length is shown with what is known of it, and so are the pairs of a file whose
/// parts cannot be told.
#[test]
fn a_starting_part_is_shown() {
    let text = shown("a file", &examples::file_of("refused-19"), &UNICODE);
    assert!(text.contains("\nstarting [250, 0]\n"), "{text}");
    assert!(!text.contains("start "), "{text}");
    let none = format!("4C460303 10000900 19000000 19000100 {TABLE} 03");
    let text = shown("a file", &bytes_of_hexadecimal(&none), &UNICODE);
    let pairs = "# the type table: offset 16, length 9\n# the starting part: offset 25, length 0\n\
                 # bay 0: offset 25, length 1\n";
    assert!(text.contains(pairs), "{text}");
    let cut = format!("4C460303 10000900 19000200 1B000100 {TABLE} FA00 02");
    let text = shown("a file", &bytes_of_hexadecimal(&cut), &UNICODE);
    let remains =
        "# bay 0 is no term; 1 of its nodes can be read\n#   start 250\n#   application\n";
    assert!(text.contains(remains), "{text}");
}
