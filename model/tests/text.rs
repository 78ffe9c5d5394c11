//! `show` and `write` are inverse: on the examples, on thousands of generated recipes, and on
//! refused ones too where their parts are terms.

use model::causes;
use model::command::on_deep_stack;
use model::draw::Draw;
use model::editions::THIRD;
use model::examples;
use model::format::{bytes_of_hexadecimal, write_parts, Recipe};
use model::generate::recipes;
use model::tags;
use model::tool::judge::NAME;
use model::tool::show::shown;
use model::tool::text::spelling::{ASCII, UNICODE};
use model::tool::write::made;
use model::verdict::verdict;
use std::collections::BTreeMap;

fn comes_back(file: &[u8]) {
    let even_refused = verdict(file).number() != 0;
    for spelling in [&UNICODE, &ASCII] {
        let text = shown("a file", file, spelling);
        let made = made(text.as_bytes(), even_refused);
        assert_eq!(made.as_deref(), Ok(file), "{text}");
    }
}

#[test]
fn the_examples_come_back() {
    for example in examples::all() {
        if example.name != "refused-5" {
            on_deep_stack(|| comes_back(&example.file()));
        }
    }
}

#[test]
fn generated_recipes_come_back() {
    on_deep_stack(|| {
        let mut draw = Draw::new(41);
        let mut accepted = 0;
        while accepted < 4_000 {
            let file = recipes::well_typed(&mut draw).write();
            accepted += u32::from(verdict(&file).number() == 0);
            comes_back(&file);
        }
        for _ in 0..50 {
            comes_back(&recipes::at_a_limit(&mut draw).write());
        }
        comes_back(&recipes::largest(&mut draw).write());
    });
}

/// Causes 6 to 11 and 19 leave a recipe that can be written down.
#[test]
fn refused_recipes_come_back_too() {
    on_deep_stack(|| {
        let mut draw = Draw::new(42);
        let mut came_back = BTreeMap::new();
        for _ in 0..6_000 {
            let file = recipes::file(&mut draw);
            let number = verdict(&file).number();
            if number >= causes::TERM_SIZE && file.len() < 4_000 {
                comes_back(&file);
                *came_back.entry(number).or_insert(0) += 1;
            }
        }
        let expected = (causes::TERM_SIZE..=causes::BAY_ONCE).chain([causes::STARTING]);
        assert!(came_back.keys().copied().eq(expected), "{came_back:?}");
    });
}

/// A drawn recipe in edition 3.
fn of_edition_3(draw: &mut Draw) -> Recipe {
    let mut recipe = recipes::well_typed(draw);
    recipe.edition = THIRD.number;
    let num = |draw: &mut Draw| u16::from_le_bytes([draw.byte(), draw.byte()]);
    recipe.starts = recipe.terms.iter().map(|_| num(draw)).collect();
    recipe
}

#[test]
fn starting_nums_come_back() {
    on_deep_stack(|| {
        let mut draw = Draw::new(47);
        for _ in 0..1_000 {
            let mut recipe = of_edition_3(&mut draw);
            comes_back(&recipe.write());
            recipe.starts = THIRD.zeros(recipe.terms.len());
            comes_back(&recipe.write());
        }
    });
}

#[test]
fn starting_parts_of_any_length_come_back() {
    on_deep_stack(|| {
        let mut draw = Draw::new(48);
        let mut refused = 0;
        for length in (1..60).chain([300, 3_000]) {
            let mut parts = of_edition_3(&mut draw).parts();
            parts[1] = (0..length).map(|_| draw.byte()).collect();
            let file = write_parts(THIRD.number, &parts);
            refused += u32::from(verdict(&file).number() == causes::STARTING);
            comes_back(&file);
        }
        assert!(refused > 40, "{refused} refused 19");
    });
}

/// The bytes of a text that is no output of `show`.
fn bytes(text: &str) -> Vec<u8> {
    made(text.as_bytes(), false).expect("a good text")
}

#[test]
fn types_that_are_not_listed_are_added() {
    let short = bytes("bay 0 = exch[num ref →ω num →ω num] setting0 250");
    assert_eq!(short, examples::file_of("one-vent"));
}

#[test]
fn names_lines_and_comments_are_free() {
    let one = bytes("bay 0 : unit →ω unit = λ any_name : unit . any_name # the same");
    let other = bytes("bay 0=\n  \\x:unit.\n\tx\n");
    assert_eq!(one, other);
    let marked = bytes("bay 0 = (λf:num →1 num. f 5) (λ1x:num.x)");
    assert_eq!(
        marked,
        bytes("bay 0 = (λf:num -1> num. f 5) (\\1 x:num. x)")
    );
    let shadowed = bytes("bay 0 = λx:num. λx:unit. x");
    assert_eq!(shadowed, bytes("bay 0 = λx:num. λy:unit. y"));
}

#[test]
fn a_num_is_any_two_byte_number() {
    for value in [0, 1_000, 1_001, u16::MAX] {
        let file = bytes(&format!("bay 0 = {value}"));
        let [low, high] = value.to_le_bytes();
        assert!(file.ends_with(&[tags::NUM, low, high]), "{value}");
    }
}

/// The file of edition 3 with case A's table, that starting part, and unit in each bay.
fn units_from(starting: &str, bays: usize) -> Vec<u8> {
    let table = "000000 010000 020100";
    let mut parts = vec![bytes_of_hexadecimal(table), bytes_of_hexadecimal(starting)];
    parts.resize(2 + bays, vec![tags::UNIT]);
    write_parts(THIRD.number, &parts)
}

#[test]
fn a_bay_may_say_where_it_starts() {
    for (text, starting, bays) in [
        ("bay 0 = start 250 unit", "FA00", 1),
        ("bay 0 : unit =\n  start 250\n  unit\n", "FA00", 1),
        ("edition 3 bay 0 = start 0 unit", "0000", 1),
        ("bay 0 = start 0 unit", "0000", 1),
        ("edition 3 bay 0 = unit", "0000", 1),
        ("bay 0 = start 65535 unit bay 1 = start 256 unit", "FFFF 0001", 2),
        ("bay 0 = unit bay 1 = start 7 unit bay 2 = unit", "0000 0700 0000", 3),
        ("starting [250, 0] bay 0 = unit", "FA00", 1),
        ("types t0 = unit t1 = num t2 = num ref starting [1, 2, 3, 4]\nbay 0 = unit bay 1 = unit", "0102 0304", 2),
    ] {
        assert_eq!(bytes(text), units_from(starting, bays), "{text}");
    }
    let odd = made(b"starting [1, 2, 3] bay 0 = unit", true);
    assert_eq!(odd, Ok(units_from("010203", 1)));
}

/// A text without a `start` line means what it meant before.
#[test]
fn start_may_be_a_variable() {
    let named = bytes("bay 0 = λstart:num. λstarting:num. start");
    assert_eq!(named, bytes("bay 0 = λx:num. λy:num. x"));
    assert_eq!(named[2], 1);
    let both = bytes("bay 0 = start 5 λstart:num. start");
    assert_eq!(both, bytes("bay 0 = start 5 λx:num. x"));
}

#[test]
fn pairs_and_lists_have_a_text() {
    // 3: num ×ω num; the case takes the pair apart and is its second component
    let table = "000000 010000 020100 060101";
    let term = "0C 0A 03 04 FA 00 04 07 00 00 00";
    let due = write_parts(
        2,
        &[bytes_of_hexadecimal(table), bytes_of_hexadecimal(term)],
    );
    for text in [
        "bay 0 = case (250, 7) of (x, y) ⇒ y",
        "bay 0 = case (250, 7)[num *w num] of (x, y) => y",
        "edition 2 bay 0 : num = case ((250), 7) of (reading, hour) ⇒ hour",
        "types t0 = unit t1 = num t2 = num ref t3 = num ×ω num\n\
         bay 0 = case (250, 7)[t3] of (x, x) ⇒ x",
    ] {
        assert_eq!(bytes(text), due, "{text}");
    }
    // 3: num listω, 4: 3 to 3, 5: 4 to 3; a list that ends in a thread's future
    let table = "000000 010000 020100 080100 040303 040403";
    let term = "0D 0B 03 04 01 00 02 07 05 01 04 00 00 00 01";
    let due = write_parts(
        2,
        &[bytes_of_hexadecimal(table), bytes_of_hexadecimal(term)],
    );
    for text in [
        "bay 0 = case (1 :: thread[(num listω →ω num listω) →ω num listω] (λl:num listω. l))\n\
         of x :: r ⇒ x",
        "bay 0 = case (1 :: thread[(num listw -w> num listw) -w> num listw] (\\l:num listw. l))\n\
         [num listw] of x::r=>x",
    ] {
        assert_eq!(bytes(text), due, "{text}");
    }
}

#[test]
fn a_pair_without_its_type_is_once_where_a_component_is() {
    let short = bytes("bay 0 = λ f:num →1 num. case (f, 1) of (g, n) ⇒ g n");
    let long = bytes("bay 0 = λ f:num →1 num. case (f, 1)[(num →1 num) ×1 num] of (g, n) ⇒ g n");
    assert_eq!(short, long);
    let once = bytes("bay 0 = case (1, 2)[num ×1 num] of (x, y) ⇒ x");
    assert_ne!(once, bytes("bay 0 = case (1, 2) of (x, y) ⇒ x"));
}

#[test]
fn signs_of_types_bind_as_the_page_says() {
    for (text, same) in [
        ("num ×ω num →ω unit", "(num ×ω num) →ω unit"),
        ("num ×ω num ×ω unit →ω num", "(num ×ω (num ×ω unit)) →ω num"),
        (
            "num ref listω ×ω num listω →ω unit",
            "(((num ref) listω) ×ω (num listω)) →ω unit",
        ),
        (
            "num →ω num ×1 num list1 →1 num",
            "num →ω ((num ×1 (num list1)) →1 num)",
        ),
    ] {
        let recipe = |written: &str| made(format!("bay 0 = λx[{written}]. unit").as_bytes(), true);
        assert_eq!(recipe(text), recipe(same), "{text}");
    }
}

#[test]
fn the_edition_is_the_least_or_what_the_text_says() {
    let edition = |text: &str| made(text.as_bytes(), true).expect("a text")[2];
    assert_eq!(edition("bay 0 = unit"), 1);
    assert_eq!(edition("edition 2 bay 0 = unit"), 2);
    assert_eq!(edition("edition 1 bay 0 = unit"), 1);
    assert_eq!(edition("bay 0 = (1, 2)"), 2);
    assert_eq!(edition("bay 0 = λx:num listω. unit"), 2);
    assert_eq!(
        edition("types t0 = unit t1 = num t2 = num ref t3 = num ×1 num bay 0 = unit"),
        2
    );
    assert_eq!(edition("edition 1 bay 0 = (1, 2)"), 1);
    assert_eq!(edition("edition 7 bay 0 = unit"), 7);
    assert_eq!(edition("edition 3 bay 0 = unit"), 3);
    assert_eq!(edition("bay 0 = start 0 unit"), 3);
    assert_eq!(edition("bay 0 = (1, 2) bay 1 = start 9 unit"), 3);
    let told = complaint("edition 1 bay 0 = (1, 2)");
    assert!(
        told.contains("refused 4") && told.contains("there is no kind 6 in edition 1"),
        "{told}"
    );
}

/// The complaint, without whose verdict it is.
fn complaint(text: &str) -> String {
    let told = made(text.as_bytes(), false).expect_err(text);
    told.replace(&format!(" by {NAME}:"), ":")
}

/// Texts with an error, and the complaint.
const ERRORS: &[(&str, &str)] = &[
    ("", ":1:1: expected 'bay 0', found the end of the text"),
    (
        "bay 1 = unit",
        ":1:5: expected '0', the next bay's number, found '1'",
    ),
    ("bay 0 unit", ":1:7: expected '=', found 'unit'"),
    (
        "bay 0 =",
        ":2:1: expected a term, found the end of the text",
    ),
    (
        "bay 0 =\n  (unit",
        ":3:1: expected ')' or an argument, found the end of the text",
    ),
    (
        "bay 0 = λx. x",
        ":1:11: expected ':' and the variable's type, found '.'",
    ),
    ("bay 0 = λx:num x", ":1:16: expected '.', found 'x'"),
    ("bay 0 = λx:nun. x", ":1:12: expected a type, found 'nun'"),
    (
        "bay 0 = λunit:num. 3",
        ":1:10: expected the name of a variable, found 'unit'",
    ),
    ("bay 0 = y", ":1:9: no λ here binds 'y'"),
    (
        "bay 0 = 65536",
        ":1:9: expected a num, at most 65535, found '65536'",
    ),
    (
        "bay 0 = exch setting0",
        ":1:14: expected '[' and the type of exch, found 'setting0'",
    ),
    (
        "bay 0 = λx:num × num. x",
        ":1:16: expected the sign of a pair type: ×1 or ×ω (*1 or *w)",
    ),
    (
        "bay 0 = case unit",
        ":2:1: expected 'of' or an argument, found the end of the text",
    ),
    (
        "bay 0 = case unit of x, y ⇒ x",
        ":1:23: expected '::', found ','",
    ),
    (
        "bay 0 = case unit of (x :: y) ⇒ x",
        ":1:25: expected ',', found '::'",
    ),
    (
        "bay 0 = case unit of (x, y) = x",
        ":1:29: expected '⇒', found '='",
    ),
    (
        "bay 0 = (1, 2",
        ":2:1: expected ')' or an argument, found the end of the text",
    ),
    (
        "bay 0 = λof:num. 3",
        ":1:10: expected the name of a variable, found 'of'",
    ),
    (
        "edition bay 0 = unit",
        ":1:9: expected the number of an edition, found 'bay'",
    ),
    (
        "bay 0 = λx:num → num. x",
        ":1:16: expected an arrow: →1 or →ω (-1> or -w>)",
    ),
    (
        "bay 0 = unit ; unit",
        ":1:14: there is no sign ';' in a recipe",
    ),
    (
        "bay 0 = unit\nbay 2 = unit",
        ":2:5: expected '1', the next bay's number, found '2'",
    ),
    (
        "bay 0 : num = unit",
        ":1:7: the bay's term is of type unit, not num",
    ),
    (
        "types t1 = num",
        ":1:7: expected 't0', the next type, or 'bay 0', found 't1'",
    ),
    (
        "types t0 = unit t1 = (unit -w> unit) ref",
        ":1:22: this type has no number yet: list it in a line above",
    ),
    (
        "bay 0 = λx:num. (3 unit)",
        ":1:18: this is applied, and is num, no function",
    ),
    ("bay 0 = λx:t9. x", ":1:12: there is no t9 so far"),
    (
        "bay 0 = (-5)",
        ":1:10: -5 is no num: a num is a whole number from 0 to 65535",
    ),
    (
        "bay 0 = 12.5",
        ":1:9: 12.5 is no num: a num is a whole number from 0 to 65535, \
         in tenths of a percent (12.5 percent is 125)",
    ),
    (
        "bay 0 = 0.0 ",
        ":1:9: 0.0 is no num: a num is a whole number from 0 to 65535, \
         in tenths of a percent (0.0 percent is 0)",
    ),
    (
        "bay 0 = 0x10",
        ":1:9: 0x10 is no num: a num is a whole number from 0 to 65535",
    ),
    (
        "bay 0 = let x = 3 in x",
        ":1:9: no λ here binds 'let' (a recipe has no let: (λx:type. body) value names a value)",
    ),
    (
        "let x = 3",
        ":1:1: expected 'bay 0', found 'let' (a recipe has no let: (λx:type. body) value names a value)",
    ),
    (
        "bay 0 = fun x x",
        ":1:9: no λ here binds 'fun' (a function is λx:type. body, or \\x:type. body)",
    ),
    (
        "bay 0 = start 65536 unit",
        ":1:15: expected a starting num, at most 65535, found '65536'",
    ),
    (
        "bay 0 = start unit",
        ":1:15: expected a starting num, found 'unit'",
    ),
    (
        "bay 0 = start 2.5 unit",
        ":1:15: 2.5 is no num: a num is a whole number from 0 to 65535, \
         in tenths of a percent (2.5 percent is 25)",
    ),
    (
        "bay 0 =\n  start 5",
        ":3:1: expected a term, found the end of the text",
    ),
    (
        "bay 0 = start 5 start 6 unit",
        ":1:17: the bay has a start already",
    ),
    (
        "bay 0 = unit\n  start 5",
        ":2:3: no λ here binds 'start' (a bay's start stands between its '=' and its term: \
         bay 0 = start 250 unit)",
    ),
    (
        "bay 0 = λx:num. start 5",
        ":1:17: no λ here binds 'start' (a bay's start stands between its '=' and its term: \
         bay 0 = start 250 unit)",
    ),
    (
        "start 5 bay 0 = unit",
        ":1:1: expected 'bay 0', found 'start' (a bay's start stands between its '=' and its term: \
         bay 0 = start 250 unit)",
    ),
    (
        "bay 0 : unit start 5 = unit",
        ":1:14: expected '=', found 'start' (a bay's start stands between its '=' and its term: \
         bay 0 = start 250 unit)",
    ),
    (
        "edition 2 bay 0 = unit bay 1 = start 5 unit",
        ":1:32: edition 2 has no starting nums; edition 3 has",
    ),
    (
        "edition 1 starting [1, 2] bay 0 = unit",
        ":1:11: edition 1 has no starting nums; edition 3 has",
    ),
    (
        "starting [1, 2] bay 0 = start 5 unit",
        ":1:25: the starting part stands above, byte by byte",
    ),
    ("starting [] bay 0 = unit", ":1:11: expected a byte, found ']'"),
    (
        "starting [1, 256] bay 0 = unit",
        ":1:14: expected a byte, at most 255, found '256'",
    ),
    (
        "\u{FEFF}bay 0 = unit",
        ":1:1: here is a byte-order mark; save the text as UTF-8 without one",
    ),
];

#[test]
fn errors_have_line_and_column_and_say_what_was_expected() {
    for (text, expected) in ERRORS {
        assert_eq!(&complaint(text), expected, "{text}");
    }
}

#[test]
fn a_refusal_is_told_at_its_place_in_the_text() {
    let text = "bay 0 = unit\nbay 1 = (λx:num. x)\n  unit\n";
    let expected = ":3:3: refused 9: application of a non-function, argument, body, component or \
                    subject of another type; the argument should be num, and unit is unit";
    assert_eq!(complaint(text), expected);
    let text = "bay 0 =\n  λf:num →1 unit. unit";
    assert!(
        complaint(text).starts_with(":2:3: refused 10: "),
        "{}",
        complaint(text)
    );
}

/// Refused texts, and how the complaint begins and ends.
const REFUSALS: &[(&str, &str, &str)] = &[
    (
        "bay 0 = (λf:num →1 num. unit) (λ1 x:num. x)",
        ":1:10: refused 10: ",
        "; the once-variable f, of type num →1 num, is used 0 times",
    ),
    (
        "bay 0 = (λ1 go:num →1 num.\n  (λagain:num. go again) 3) (λ1 x:num. x)",
        ":2:16: refused 10: ",
        "; the once-variable go, of type num →1 num, is free under a many-lambda; \
         the λagain at 2:4 should be λ1 again",
    ),
    (
        "bay 0 = (λf:num →1 num. f 3)\n  (λn:num. n)",
        ":2:4: refused 9: ",
        "; the argument should be num →1 num, and λn:num. n is num →ω num; \
         the λn at 2:4 should be λ1 n",
    ),
    (
        "bay 0 = (λf:num →ω num →1 num. f 3 4)\n  (λ1 n:num. λm:num. m)",
        ":2:4: refused 9: ",
        "; the λ1 n at 2:4 should be λn; the λm at 2:14 should be λ1 m",
    ),
    (
        "bay 0 = (λf:num →1 num. f 3) (λn:num. unit)",
        ":1:31: refused 9: ",
        "; the argument should be num →1 num, and λn:num. unit is num →ω unit",
    ),
    (
        "bay 0 = λf:num →ω num. f (λg:num →ω num. g)",
        ":1:27: refused 9: ",
        "; the argument should be num, and λg:num →ω num. g is (num →ω num) →ω num →ω num",
    ),
    (
        "bay 0 = λx:num. exch[num ref →ω num →ω num] x",
        ":1:45: refused 9: ",
        "; the argument should be num ref, and x is num",
    ),
    (
        "bay 0 = (1, unit)[num ×ω num]",
        ":1:13: refused 9: ",
        "; the second component should be num, and unit is unit",
    ),
    (
        "bay 0 = (1 :: 2)[num listω]",
        ":1:15: refused 9: ",
        "; the rest should be num listω, and 2 is num",
    ),
    (
        "bay 0 = (1 :: 2)[num ×ω num]",
        ":1:9: refused 8: ",
        "; the list front's type is num ×ω num, no list",
    ),
    (
        "bay 0 = (1, 2)[num]",
        ":1:9: refused 8: ",
        "; the pair's type is num, no pair",
    ),
    (
        "bay 0 = case (1, 2) of x :: r ⇒ unit",
        ":1:14: refused 9: ",
        "; (1, 2)[num ×ω num] is taken apart, and is num ×ω num, no list",
    ),
    (
        "bay 0 = λp:(num →1 unit) ×1 num. case p of (bind, n) ⇒ n",
        ":1:34: refused 10: ",
        "; the once-variable bind, of type num →1 unit, is used 0 times",
    ),
    (
        "bay 0 = λf:num →1 num. case (f 1, f 2) of (x, y) ⇒ x",
        ":1:9: refused 10: ",
        "; the once-variable f, of type num →1 num, is used 2 times",
    ),
    (
        "bay 0 = unit\nbay 1 = (1, 2)[num ×1 num]",
        ":2:9: refused 11: ",
        "; the bay's type is num ×1 num, usable once",
    ),
    (
        "bay 0 = start 9 unit\nbay 1 = start 8 unit unit",
        ":2:17: refused 9: ",
        "; unit is applied, and is unit, no function",
    ),
    (
        "types t0 = unit t1 = num t2 = num ref\nstarting [1, 0, 2]\nbay 0 = unit bay 1 = unit",
        ":2:1: refused 19: ",
        "; the part's length is 3; b is 2, so it should be 4",
    ),
    (
        "starting [1] bay 0 = 5 bay 1 = setting2",
        ":1:32: refused 7: ",
        "; name 2, and the bays are 0 to 1",
    ),
    (
        "bay 0 = unit\nbay 1 = λ1 vent:num. vent",
        ":2:9: refused 11: ",
        "; the bay's type is num →1 num, usable once; the λ1 vent at 2:9 should be λvent",
    ),
];

#[test]
fn a_refusal_is_told_in_the_texts_own_names_and_places() {
    for (text, first, last) in REFUSALS {
        let told = complaint(text);
        assert!(told.starts_with(first) && told.ends_with(last), "{told}");
    }
}

/// Two variables of one name: the place says which is meant.
#[test]
fn a_shadowed_variable_is_told_by_its_own_place() {
    let told = complaint("bay 0 = λx:num →1 num. λ1 x:num →1 num. λ1 y:num. x y");
    let expected = ":1:9: refused 10: ";
    assert!(told.starts_with(expected), "{told}");
    assert!(told.ends_with("the once-variable x, of type num →1 num, is used 0 times"));
}

#[test]
fn no_text_is_too_deep_or_too_long() {
    on_deep_stack(|| {
        let opened = "bay 0 = ".to_owned() + &"(".repeat(100_000);
        assert!(complaint(&opened).ends_with("nested too deep"));
        let types = "bay 0 = λx:".to_owned() + &"(".repeat(100_000);
        assert!(complaint(&types).ends_with("nested too deep"));
        let arrows = "bay 0 = λx:".to_owned() + &"unit →ω ".repeat(100_000);
        assert!(complaint(&arrows).ends_with("nested too deep"));
        for part in ["case ", "(1, ", "case 1 of (x, y) ⇒ "] {
            let nested = "bay 0 = ".to_owned() + &part.repeat(100_000);
            let told = complaint(&nested);
            let ends = [
                "nested too deep",
                "this is more than a recipe file can hold",
            ];
            assert!(ends.iter().any(|end| told.ends_with(end)), "{told}");
        }
        let pairs = "bay 0 = λx:".to_owned() + &"unit ×ω ".repeat(100_000);
        assert!(complaint(&pairs).ends_with("nested too deep"));
        let long = "bay 0 = unit ".to_owned() + &"unit ".repeat(100_000);
        assert!(complaint(&long).ends_with("this is more than a recipe file can hold"));
        let starting = "starting [0".to_owned() + &", 0".repeat(100_000);
        assert!(complaint(&starting).ends_with("this is more than a recipe file can hold"));
        let many = (0..17)
            .map(|bay| format!("bay {bay} = unit\n"))
            .collect::<String>();
        assert_eq!(complaint(&many), ":17:1: a recipe has at most 16 bays");
    });
}

/// Any bytes get an answer, and no text that came from a recipe and was damaged stops the tool.
#[test]
fn damaged_texts_get_an_answer() {
    on_deep_stack(|| {
        let mut draw = Draw::new(43);
        for _ in 0..3_000 {
            let file = recipes::well_typed(&mut draw).write();
            let mut text = shown("a file", &file, &UNICODE).into_bytes();
            for _ in 0..draw.between(1, 4) {
                let at = draw.below(text.len());
                match draw.below(3) {
                    0 => text[at] = draw.byte(),
                    1 => text[at] = draw.pick(b"()[].:=@,*>0123456789 \nabct"),
                    _ => {
                        text.remove(at);
                    }
                }
            }
            let _ = made(&text, draw.one_in(2));
        }
    });
}
