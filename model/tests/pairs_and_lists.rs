//! Document 02, T-03: the readings of "pairs and lists", an example each.

mod common;

use common::*;
use model::causes;
use model::config::Component;
use model::load::starting_image;
use model::nodes::Node;
use model::rules;
use model::step::Outcome;
use model::types::{Constant, Shape};
use model::typing::{derive, Environment, Subject};
use model::verdict::{read_recipe, verdict, Verdict};

/// After unit, num and cell of num: 3 num ×ω num, 4 num listω, 5 num →1 unit,
/// 6 num ×1 5, 7 num list1, 8 num →ω num, 9 unit →1 unit.
const TABLE: &str = "000000 010000 020100 060101 080100 030100 050105 070100 040101 030000";

fn pair(first: Vec<Node>, second: Vec<Node>) -> Vec<Node> {
    [vec![Node::Pair(0)], first, second].concat()
}

fn front(first: Vec<Node>, rest: Vec<Node>) -> Vec<Node> {
    [vec![Node::Front(0)], first, rest].concat()
}

fn case(shape: Shape, subject: Vec<Node>, body: Vec<Node>) -> Vec<Node> {
    [vec![Node::Case(shape)], subject, body].concat()
}

fn name(y: u8) -> Vec<Node> {
    vec![Node::Name(y)]
}

fn num(value: u16) -> Vec<Node> {
    vec![Node::Num(value)]
}

fn variable(index: u8) -> Vec<Node> {
    vec![Node::Variable(index)]
}

/// Thread 0 takes its subject apart, and the body is the first component.
fn taking(shape: Shape, subject: Vec<Node>) -> Component {
    thread(&case(shape, subject, variable(1)))
}

const WRONG: Outcome = Outcome::Refused(causes::WRONG_KIND);

#[test]
fn the_edition_is_1_or_2() {
    for edition in 0..=255 {
        let file = file_of(edition, A, &["03"]);
        let due = if [1, 2].contains(&edition) { 0 } else { 2 };
        assert_eq!(number(&file), due, "{edition}");
    }
}

#[test]
fn an_edition_1_file_with_any_of_these_is_refused_as_before() {
    for kind in 5..=8 {
        let table = format!("{A} 0{kind}0100");
        assert_eq!(number(&recipe(&table, "03")), 4, "{kind}");
        assert_eq!(number(&recipe_2(&table, "03")), 0, "{kind}");
    }
    for term in ["0A 03 03 03", "0B 03 03 03", "0C 03 03", "0D 03 03"] {
        assert_eq!(number(&recipe(A, term)), 5, "{term}");
    }
    // 4 before 5, over the whole file
    assert_eq!(number(&recipe(&format!("{A} 060101"), "0A 03 03 03")), 4);
    assert_eq!(number(&recipe_2(A, "0E 03 03")), 5);
    assert_eq!(number(&recipe_2(&format!("{A} 090101"), "03")), 4);
}

#[test]
fn a_pair_uses_p_and_q_and_a_list_p_alone() {
    for (entry, due) in [
        ("050101", 0),
        ("050301", 4),
        ("050103", 4),
        ("060101", 0),
        ("060301", 4),
        ("060103", 4),
        ("070100", 0),
        ("070101", 4),
        ("070300", 4),
        ("080100", 0),
        ("080101", 4),
        ("080300", 4),
        ("0801FF", 4),
    ] {
        assert_eq!(
            number(&recipe_2(&format!("{A} {entry}"), "03")),
            due,
            "{entry}"
        );
    }
    assert_eq!(number(&recipe_2(&format!("{A} 060101 060101"), "03")), 4);
    assert_eq!(number(&recipe_2(&format!("{A} 060101 050101"), "03")), 0);
}

#[test]
fn a_many_pair_or_list_has_only_many_contents() {
    // 3: num once to unit
    let table = format!("{A} 030100");
    for (entry, due) in [
        ("060301", 4),
        ("060103", 4),
        ("060303", 4),
        ("080300", 4),
        ("050303", 0),
        ("070300", 0),
        ("020300", 0),
    ] {
        assert_eq!(
            number(&recipe_2(&format!("{table} {entry}"), "03")),
            due,
            "{entry}"
        );
    }
    // 4: a once pair, 5: a once list; either is once, whatever it holds
    for once in ["050101", "070100"] {
        for entry in ["060401", "060104", "080400"] {
            let table = format!("{table} {once} {entry}");
            assert_eq!(number(&recipe_2(&table, "03")), 4, "{once} {entry}");
        }
    }
}

#[test]
fn contents_are_looked_at_no_deeper() {
    // 3: num once to unit, 4: cell of 3, 5: 3 to unit, 6: once pair of 3 and 3, 7: cell of 6
    let table = format!("{A} 030100 020300 040300 050303 020600");
    for entry in ["060404", "060505", "060707", "080400", "080500", "080700"] {
        assert_eq!(
            number(&recipe_2(&format!("{table} {entry}"), "03")),
            0,
            "{entry}"
        );
    }
}

#[test]
fn nodes_10_and_11_carry_the_type_of_the_whole() {
    assert_eq!(
        verdict(&recipe_2(TABLE, "0A 03 04 0100 04 0200")),
        Verdict::Accepted(vec![3])
    );
    // 7 for a number that is none, 8 for another kind, 9 for another component
    assert_eq!(number(&recipe_2(TABLE, "0A 0A 04 0100 04 0200")), 7);
    assert_eq!(number(&recipe_2(TABLE, "0B 0A 04 0100 04 0200")), 7);
    for other in ["00", "01", "02", "04", "05", "07", "08"] {
        let term = format!("0A {other} 04 0100 04 0200");
        assert_eq!(number(&recipe_2(TABLE, &term)), 8, "{term}");
    }
    for other in ["00", "01", "02", "03", "05", "06", "08"] {
        let term = format!("0B {other} 04 0100 04 0200");
        assert_eq!(number(&recipe_2(TABLE, &term)), 8, "{term}");
    }
    assert_eq!(number(&recipe_2(TABLE, "0A 03 03 04 0200")), 9);
    assert_eq!(number(&recipe_2(TABLE, "0A 03 04 0200 03")), 9);
    // the cause is the lowest over the whole file
    assert_eq!(number(&recipe_2(TABLE, "0A 03 03 0A 00 03 0A 0A 03 03")), 7);
}

#[test]
fn the_rest_of_a_list_has_the_lists_own_type() {
    // 10: (4 to 4) to 4 many, 9 being 4 to 4: thread λx.x is a list to come
    let table = format!("{T4} 040404 040504");
    let future = "02 07 06 01 05 00 00";
    let list = format!("0B 04 04 0100 {future}");
    assert_eq!(
        verdict(&recipe_2(&table, &list)),
        Verdict::Accepted(vec![4])
    );
    assert_eq!(number(&recipe_2(&table, "0B 04 04 0100 04 0200")), 9);
    assert_eq!(
        number(&recipe_2(&table, &format!("0B 04 {future} {future}"))),
        9
    );
    assert_eq!(
        number(&recipe_2(&table, &format!("0B 04 04 0100 {list}"))),
        0
    );
}

/// 3: num ×ω num, 4: num listω
const T4: &str = "000000 010000 020100 060101 080100";

#[test]
fn a_case_has_the_type_of_its_body() {
    let pair = "0A 03 04 0100 04 0200";
    for (body, due) in [
        ("03", 0),
        ("00 00", 1),
        ("00 01", 1),
        ("09 00", 2),
        (pair, 3),
    ] {
        let file = recipe_2(TABLE, &format!("0C {pair} {body}"));
        assert_eq!(verdict(&file), Verdict::Accepted(vec![due]), "{body}");
    }
    // a subject of another type is 9, also a list for 12 and a pair for 13
    assert_eq!(number(&recipe_2(TABLE, "0C 03 03")), 9);
    assert_eq!(number(&recipe_2(TABLE, "0D 03 03")), 9);
    assert_eq!(number(&recipe_2(TABLE, &format!("0D {pair} 03"))), 9);
    let list = format!("{T4} 040404 040504");
    assert_eq!(number(&recipe_2(&list, "0C 02 07 06 01 05 00 00 03")), 9);
    assert_eq!(number(&recipe_2(&list, "0D 02 07 06 01 05 00 00 03")), 0);
}

#[test]
fn index_0_is_the_second_component_and_for_a_list_the_rest() {
    // 3: unit ×ω num
    let table = format!("{A} 060001");
    let pair = "0A 03 03 04 0200";
    for (index, due) in [("00", 1), ("01", 0)] {
        let file = recipe_2(&table, &format!("0C {pair} 00 {index}"));
        assert_eq!(verdict(&file), Verdict::Accepted(vec![due]));
    }
    let table = format!("{T4} 040404 040504");
    for (index, due) in [("00", 4), ("01", 1)] {
        let file = recipe_2(&table, &format!("0D 02 07 06 01 05 00 00 00 {index}"));
        assert_eq!(verdict(&file), Verdict::Accepted(vec![due]));
    }
}

#[test]
fn the_body_has_two_variables_more_and_the_subject_none() {
    let pair = "0A 03 04 0100 04 0200";
    assert_eq!(number(&recipe_2(TABLE, &format!("0C {pair} 00 02"))), 7);
    assert_eq!(number(&recipe_2(TABLE, &format!("0C 00 00 {pair}"))), 7);
    // under a lambda of num: 8 is num to num, and index 2 is its variable in the body
    assert_eq!(
        number(&recipe_2(TABLE, &format!("01 08 0C {pair} 00 02"))),
        0
    );
    assert_eq!(
        number(&recipe_2(TABLE, &format!("01 08 0C {pair} 00 03"))),
        7
    );
    assert_eq!(
        number(&recipe_2(TABLE, "01 08 0C 0A 03 00 00 00 00 00 00")),
        0
    );
    assert_eq!(
        number(&recipe_2(TABLE, "01 08 0C 0A 03 00 00 00 01 00 00")),
        7
    );
    // a case in the subject: the outer one's body has two variables and not four
    let inner = format!("0C {pair} {pair}");
    assert_eq!(number(&recipe_2(TABLE, &format!("0C {inner} 00 01"))), 0);
    assert_eq!(number(&recipe_2(TABLE, &format!("0C {inner} 00 02"))), 7);
    // a case in the body: it has four
    assert_eq!(
        number(&recipe_2(TABLE, &format!("0C {pair} 0C {pair} 00 03"))),
        0
    );
    assert_eq!(
        number(&recipe_2(TABLE, &format!("0C {pair} 0C {pair} 00 04"))),
        7
    );
}

/// 3: num once to unit, 4: once pair of 3 and 3, 5: unit once to unit, 6: 4 to unit many, 7: 3 to
/// unit many, 8: unit to unit many, 9: 3 to 4 many, 10: 4 to 4 many, 11: num to unit many, 12: 4 to 11
/// many, 13: many pair of unit and unit.
const ONCE: &str = "000000 010000 020100 030100 050303 030000 040400 040300 040000 040304 040404 \
                    040100 04040B 060000";

#[test]
fn the_two_new_variables_are_used_exactly_once_where_they_are_once() {
    // λp:4. case p of (f, g) ⇒ (λu. g 2) (f 1), the λ once
    let both = "02 01 05 02 00 01 04 0200 02 00 01 04 0100";
    assert_eq!(
        number(&recipe_2(ONCE, &format!("01 06 0C 00 00 {both}"))),
        0
    );
    // one of them, none, one of them twice
    let first = "02 00 01 04 0100";
    assert_eq!(
        number(&recipe_2(ONCE, &format!("01 06 0C 00 00 {first}"))),
        10
    );
    let second = "02 00 00 04 0100";
    assert_eq!(
        number(&recipe_2(ONCE, &format!("01 06 0C 00 00 {second}"))),
        10
    );
    assert_eq!(number(&recipe_2(ONCE, "01 06 0C 00 00 03")), 10);
    let twice = "02 01 05 02 00 01 04 0200 02 00 00 04 0100";
    assert_eq!(
        number(&recipe_2(ONCE, &format!("01 06 0C 00 00 {twice}"))),
        10
    );
    // a many pair's variables may be left or used at will
    assert_eq!(number(&recipe_2(ONCE, "0C 0A 0D 03 03 03")), 0);
    assert_eq!(
        number(&recipe_2(ONCE, "0C 0A 0D 03 03 0A 0D 00 01 00 01")),
        0
    );
}

#[test]
fn a_case_is_no_lambda() {
    // λf:3. case (unit, unit) of (x, y) ⇒ f 1: a once-variable from outside in the body
    assert_eq!(
        number(&recipe_2(ONCE, "01 07 0C 0A 0D 03 03 02 00 02 04 0100")),
        0
    );
    // and in the subject: λf:3. case (f 1, unit) of (x, y) ⇒ x
    assert_eq!(
        number(&recipe_2(ONCE, "01 07 0C 0A 0D 02 00 00 04 0100 03 00 01")),
        0
    );
    // in both it is used twice
    let both = "01 07 0C 0A 0D 02 00 00 04 0100 03 02 00 02 04 0100";
    assert_eq!(number(&recipe_2(ONCE, both)), 10);
    // a many-lambda between the case and the use counts, the one around both does not
    let closed = "01 0C 0C 00 00 01 0B 02 01 05 02 00 02 00 01 02 00 02 00 00";
    assert_eq!(number(&recipe_2(ONCE, closed)), 10);
}

#[test]
fn components_split_once_variables_as_an_application_does() {
    // λf:3. (f, f) is 4: twice; λp:4. case p of (f, g) ⇒ (g, f): once each
    assert_eq!(number(&recipe_2(ONCE, "01 09 0A 04 00 00 00 00")), 10);
    assert_eq!(
        number(&recipe_2(ONCE, "01 0A 0C 00 00 0A 04 00 00 00 01")),
        0
    );
    assert_eq!(
        number(&recipe_2(ONCE, "01 0A 0C 00 00 0A 04 00 00 00 00")),
        10
    );
}

#[test]
fn a_many_pair_or_front_may_be_made_of_uses_of_once_variables() {
    // λf:3. case (f 1, unit)[13] of (x, y) ⇒ x is above; here as the result: 14: 3 to 13
    let table = format!("{ONCE} 04030D");
    assert_eq!(
        number(&recipe_2(&table, "01 0E 0A 0D 02 00 00 04 0100 03")),
        0
    );
    // 3: num once to num, 4: num listω, 5: 4 to 4, 6: 5 to 4, 7: 3 to 4, all many
    let table = format!("{A} 030101 080100 040404 040504 040304");
    let list = "01 07 0B 04 02 00 00 04 0100 02 07 06 01 05 00 00";
    assert_eq!(number(&recipe_2(&table, list)), 0);
}

#[test]
fn multiplicity_is_once_for_kinds_3_5_and_7() {
    // 3: once pair, 4: once list, 5: many pair, 6: many list, each of num
    let table = format!("{A} 050101 070100 060101 080100");
    let whole = |kind: u8| format!("{table} 040{kind}0{kind} 04070{kind}");
    for (kind, due) in [(3, 8), (4, 8), (5, 0), (6, 0)] {
        // thread at (a to a) to a
        assert_eq!(number(&recipe_2(&whole(kind), "07 08")), due, "{kind}");
    }
    for (kind, due) in [(3, 8), (4, 8), (5, 0), (6, 0)] {
        // handle: 7: a once to unit, 8: 7 to unit, 9: a to 8, 10: 9 to unit
        let table = format!("{table} 030{kind}00 040700 040{kind}08 040900");
        assert_eq!(number(&recipe_2(&table, "08 0A")), due, "{kind}");
    }
    // a variable: 7: a to unit, whose variable is left
    for (kind, due) in [(3, 10), (4, 10), (5, 0), (6, 0)] {
        let table = format!("{table} 040{kind}00");
        assert_eq!(number(&recipe_2(&table, "01 07 03")), due, "{kind}");
    }
    // a bay
    assert_eq!(number(&recipe_2(&table, "0A 03 04 0100 04 0200")), 11);
    assert_eq!(number(&recipe_2(&table, "0A 05 04 0100 04 0200")), 0);
}

#[test]
fn a_cell_of_a_once_pair_is_many() {
    // 3: num once to unit, 4: once pair of 3 and 3, 5: cell of 4, 6: 4 to 5
    let table = format!("{A} 030100 050303 020400 040405");
    let cell = "02 05 06 0A 04 01 03 03 01 03 03";
    assert_eq!(verdict(&recipe_2(&table, cell)), Verdict::Accepted(vec![5]));
    // 7: many list of cells of 4
    assert_eq!(number(&recipe_2(&format!("{table} 080500"), cell)), 0);
}

#[test]
fn a_once_list_has_no_values_and_nothing_forbids_its_use() {
    // 3: num once to unit, 4: once list of 3, 5: 4 to unit
    let table = format!("{A} 030100 070300 040400");
    // λl:4. case l of f :: r ⇒ .. must use r, which only another case takes
    assert_eq!(
        number(&recipe_2(&table, "01 05 0D 00 00 02 00 01 04 0100")),
        10
    );
    // 6: 4 to 4: λl:4. case l of f :: r ⇒ f :: r
    let table = format!("{table} 040404");
    assert_eq!(
        number(&recipe_2(&table, "01 06 0D 00 00 0B 04 00 01 00 00")),
        0
    );
}

#[test]
fn each_new_node_counts_one_and_its_subterms_are_one_level_deeper() {
    // 4: pair of unit and unit
    let table = format!("{UNIT_FUNCTION} 060000");
    let pairs =
        |nesting: usize| "0C ".repeat(nesting - 2) + "0A 04 03 03" + &" 03".repeat(nesting - 2);
    // the subject is no pair further out, so it is 9 or 6
    assert_eq!(number(&recipe_2(&table, &pairs(100))), 9);
    assert_eq!(number(&recipe_2(&table, &pairs(101))), 6);
    let bodies = |nesting: usize| "0C 0A 04 03 03 ".repeat(nesting - 2) + "03";
    assert_eq!(number(&recipe_2(&table, &bodies(100))), 0);
    assert_eq!(number(&recipe_2(&table, &bodies(101))), 6);
    // fifteen bays of 61 nodes and one of 109: 1,024 in all
    let wide = |count: usize| "0C 0A 04 03 03 ".repeat(count) + "03";
    let mut terms = vec![wide(15); 15];
    terms.push(wide(27));
    let whole: Vec<&str> = terms.iter().map(String::as_str).collect();
    assert_eq!(number(&file_of(2, &table, &whole)), 0);
    terms[0] = wide(16);
    let whole: Vec<&str> = terms.iter().map(String::as_str).collect();
    assert_eq!(number(&file_of(2, &table, &whole)), 6);
}

#[test]
fn a_load_copies_the_term_byte_for_byte() {
    let file = recipe_2(TABLE, "0C 0A 03 04 0100 04 0200 00 00");
    let image = starting_image(&file).expect("accepted");
    assert!(image.ends_with(&[0x0C, 0x0A, 3, 4, 1, 0, 4, 2, 0, 0, 0]));
}

#[test]
fn pairs_and_fronts_of_two_values_are_values() {
    let lambda = vec![Node::Lambda(0), Node::Variable(0)];
    for made in [pair, front] {
        let value = made(num(1), lambda.clone());
        assert_eq!(step_first(&image_of(&[thread(&value)])), Outcome::Done);
        assert_eq!(
            step_first(&image_of(&[thread(&unit()), cell(&value)])),
            Outcome::Done
        );
        let inner = made(value.clone(), made(value.clone(), name(0)));
        assert_eq!(step_first(&image_of(&[thread(&inner)])), Outcome::Done);
        let exch = application(constant(Constant::Exch), value);
        assert_eq!(step_first(&image_of(&[thread(&exch)])), Outcome::Done);
        assert_eq!(
            step_first(&image_of(&[thread(&unit()), cell(&exch)])),
            Outcome::Done
        );
    }
}

#[test]
fn a_cell_holds_no_pair_that_goes_on_and_no_case() {
    let goes_on = application(vec![Node::Lambda(0), Node::Unit], unit());
    let value = pair(unit(), unit());
    for held in [
        pair(goes_on.clone(), unit()),
        pair(unit(), goes_on.clone()),
        front(goes_on.clone(), unit()),
        front(unit(), goes_on),
        case(Shape::Pair, value.clone(), unit()),
        case(Shape::List, value, unit()),
    ] {
        let image = image_of(&[thread(&unit()), cell(&held)]);
        assert_eq!(step_first(&image), Outcome::Refused(causes::IMAGE));
    }
}

#[test]
fn the_first_component_goes_first() {
    let steps = |value: u16| application(vec![Node::Lambda(0), Node::Variable(0)], num(value));
    for made in [pair, front] {
        let image = image_of(&[thread(&made(steps(1), steps(2)))]);
        let (rule, after) = image_after(&image, 0);
        assert_eq!(rule, rules::BETA);
        assert_eq!(after, image_of(&[thread(&made(num(1), steps(2)))]));
        let (rule, after) = image_after(&after, 0);
        assert_eq!(rule, rules::BETA);
        assert_eq!(after, image_of(&[thread(&made(num(1), num(2)))]));
        assert_eq!(step_first(&after), Outcome::Done);
    }
    // also where the first one waits, or cannot go on
    let waits = application(name(0), unit());
    let image = image_of(&[thread(&pair(waits, steps(2)))]);
    assert_eq!(step_first(&image), Outcome::Waiting(0));
    let wrong = application(unit(), unit());
    assert_eq!(
        step_first(&image_of(&[thread(&pair(wrong, steps(2)))])),
        WRONG
    );
}

#[test]
fn the_subject_goes_on_and_the_body_is_never_entered() {
    let steps = application(
        vec![Node::Lambda(0), Node::Variable(0)],
        pair(num(1), num(2)),
    );
    let body = application(vec![Node::Lambda(0), Node::Unit], unit());
    let image = image_of(&[thread(&case(Shape::Pair, steps, body.clone()))]);
    let (rule, after) = image_after(&image, 0);
    let subject = pair(num(1), num(2));
    let due = case(Shape::Pair, subject, body.clone());
    assert_eq!(
        (rule, after.clone()),
        (rules::BETA, image_of(&[thread(&due)]))
    );
    let (rule, after) = image_after(&after, 0);
    assert_eq!(
        (rule, after),
        (rules::CASE_PAIR, image_of(&[thread(&body)]))
    );
}

#[test]
fn rule_8_takes_a_pair_apart_and_rule_9_a_front() {
    let body = application(variable(1), application(variable(0), variable(1)));
    let lambda = vec![Node::Lambda(7), Node::Variable(0)];
    let due = application(num(1), application(lambda.clone(), num(1)));
    let image = image_of(&[thread(&case(
        Shape::Pair,
        pair(num(1), lambda.clone()),
        body.clone(),
    ))]);
    assert_eq!(
        image_after(&image, 0),
        (rules::CASE_PAIR, image_of(&[thread(&due)]))
    );
    let image = image_of(&[thread(&case(Shape::List, front(num(1), lambda), body))]);
    assert_eq!(
        image_after(&image, 0),
        (rules::CASE_LIST, image_of(&[thread(&due)]))
    );
}

#[test]
fn under_lambdas_and_cases_of_the_body_the_indices_grow() {
    // case (1, 2) of (x, y) ⇒ λ. case z of .. ⇒ (x, y): under the lambda 1 and 2, in the inner body 3, 4
    let inner = case(Shape::List, variable(0), pair(variable(4), variable(3)));
    let body = [vec![Node::Lambda(0)], inner].concat();
    let image = image_of(&[thread(&case(Shape::Pair, pair(num(1), num(2)), body))]);
    let due = case(Shape::List, variable(0), pair(num(1), num(2)));
    let due = [vec![Node::Lambda(0)], due].concat();
    assert_eq!(
        image_after(&image, 0),
        (rules::CASE_PAIR, image_of(&[thread(&due)]))
    );
    // the subject of an inner case stands outside its scope
    let inner = case(Shape::Pair, pair(variable(0), variable(1)), variable(0));
    let image = image_of(&[thread(&case(Shape::Pair, pair(num(1), num(2)), inner))]);
    let due = case(Shape::Pair, pair(num(2), num(1)), variable(0));
    assert_eq!(
        image_after(&image, 0),
        (rules::CASE_PAIR, image_of(&[thread(&due)]))
    );
}

#[test]
fn type_bytes_play_no_part_in_a_step() {
    for number in [0, 9, 255] {
        let value = [vec![Node::Pair(number)], num(1), num(2)].concat();
        let image = image_of(&[taking(Shape::Pair, value)]);
        assert_eq!(
            image_after(&image, 0),
            (rules::CASE_PAIR, image_of(&[thread(&num(1))]))
        );
    }
}

#[test]
fn a_finished_thread_as_subject_is_rule_3_and_the_case_stays() {
    for shape in [Shape::Pair, Shape::List] {
        for value in [
            pair(num(1), name(0)),
            front(num(1), name(0)),
            unit(),
            name(1),
        ] {
            let image = image_of(&[taking(shape, name(1)), thread(&value)]);
            let due = image_of(&[taking(shape, value.clone()), thread(&value)]);
            assert_eq!(image_after(&image, 0), (rules::FUTURE_DEREF, due));
        }
    }
}

#[test]
fn a_thread_not_done_or_a_future_as_subject_is_awaited() {
    for shape in [Shape::Pair, Shape::List] {
        let own = image_of(&[taking(shape, name(0))]);
        assert_eq!(step_first(&own), Outcome::Waiting(0));
        let stuck = thread(&pair(application(unit(), unit()), unit()));
        let image = image_of(&[taking(shape, name(1)), stuck]);
        assert_eq!(step_first(&image), Outcome::Waiting(1));
        let future = [
            taking(shape, name(2)),
            Component::OpenHandle(2),
            Component::Future,
        ];
        assert_eq!(step_first(&image_of(&future)), Outcome::Waiting(2));
    }
}

#[test]
fn any_other_subject_is_17() {
    for shape in [Shape::Pair, Shape::List] {
        let cell_of_pair = cell(&pair(num(1), num(2)));
        assert_eq!(
            step_first(&image_of(&[taking(shape, name(1)), cell_of_pair])),
            WRONG
        );
        let used = image_of(&[taking(shape, name(1)), Component::UsedHandle]);
        assert_eq!(step_first(&used), WRONG);
        let open = [
            taking(shape, name(1)),
            Component::OpenHandle(2),
            Component::Future,
        ];
        assert_eq!(step_first(&image_of(&open)), WRONG);
        let exch = application(constant(Constant::Exch), unit());
        let lambda = vec![Node::Lambda(0), Node::Unit];
        let other = match shape {
            Shape::Pair => front(num(1), num(2)),
            Shape::List => pair(num(1), num(2)),
        };
        for subject in [
            unit(),
            num(1),
            lambda,
            exch,
            constant(Constant::Cell),
            other,
        ] {
            assert_eq!(step_first(&image_of(&[taking(shape, subject)])), WRONG);
        }
    }
}

#[test]
fn a_pair_applied_or_exchanged_is_17() {
    for value in [pair(num(1), num(2)), front(num(1), num(2))] {
        let applied = thread(&application(value.clone(), unit()));
        assert_eq!(step_first(&image_of(&[applied])), WRONG);
        let exch = application(constant(Constant::Exch), value);
        let full = thread(&application(exch, unit()));
        assert_eq!(step_first(&image_of(&[full])), WRONG);
    }
}

#[test]
fn a_name_in_a_pair_is_not_followed() {
    let image = image_of(&[taking(Shape::Pair, pair(name(1), name(1))), thread(&num(5))]);
    let (rule, after) = image_after(&image, 0);
    assert_eq!(rule, rules::CASE_PAIR);
    assert_eq!(after, image_of(&[thread(&name(1)), thread(&num(5))]));
    assert_eq!(step_first(&after), Outcome::Done);
    // also an unbound one is taken out as it is
    let image = image_of(&[
        taking(Shape::List, front(name(2), name(2))),
        Component::OpenHandle(2),
        Component::Future,
    ]);
    assert_eq!(image_after(&image, 0).0, rules::CASE_LIST);
}

#[test]
fn a_pair_is_what_rule_3_copies_and_what_the_constants_take() {
    let value = pair(num(1), name(0));
    for (constant_tag, rule) in [
        (Constant::Thread, rules::THREAD_NEW),
        (Constant::Handle, rules::HANDLE_NEW),
        (Constant::Cell, rules::CELL_NEW),
    ] {
        let applied = application(constant(constant_tag), value.clone());
        assert_eq!(image_after(&image_of(&[thread(&applied)]), 0).0, rule);
    }
    let needing = thread(&application(name(1), unit()));
    let image = image_of(&[needing, thread(&value)]);
    let due = image_of(&[thread(&application(value.clone(), unit())), thread(&value)]);
    assert_eq!(image_after(&image, 0), (rules::FUTURE_DEREF, due));
    // exch y v puts the pair into the cell
    let exch = application(constant(Constant::Exch), name(1));
    let image = image_of(&[thread(&application(exch, value.clone())), cell(&unit())]);
    let due = image_of(&[thread(&unit()), cell(&value)]);
    assert_eq!(image_after(&image, 0), (rules::CELL_EXCH, due));
}

/// A value of that many nodes.
fn value_of(nodes: usize) -> Vec<Node> {
    let mut value = vec![Node::Lambda(0); nodes - 1];
    value.push(Node::Unit);
    value
}

#[test]
fn the_outcome_has_the_bodys_nodes_and_each_places_value_less_one() {
    // case (v, w) of (x, y) ⇒ (x, (y, (x, unit))): 7 nodes, x twice, y once
    let body = pair(variable(1), pair(variable(0), pair(variable(1), unit())));
    let (v, w) = (10, 20);
    let term = case(Shape::Pair, pair(value_of(v), value_of(w)), body.clone());
    let before = term.len();
    assert_eq!(before, 1 + 1 + v + w + 7);
    let after = 7 + 2 * (v - 1) + (w - 1);
    let (rule, image) = image_after(&image_of(&[thread(&term)]), 0);
    assert_eq!(rule, rules::CASE_PAIR);
    let now = model::image::read_image(&image).expect("sound");
    assert_eq!(now.nodes(), after);
    // with enough of x the outcome is larger than the place: 15 exactly above the limit
    let large = case(
        Shape::Pair,
        pair(value_of(100), value_of(20)),
        pair(
            variable(1),
            pair(
                variable(0),
                pair(variable(1), pair(variable(0), variable(1))),
            ),
        ),
    );
    let grown = 9 + 3 * 99 + 2 * 19;
    let more = grown - large.len();
    let room = with_image_nodes(large.clone(), 4_096 - more);
    assert!(matches!(
        step_first(&room),
        Outcome::Rule(rules::CASE_PAIR, _)
    ));
    let none = with_image_nodes(large, 4_097 - more);
    assert_eq!(step_first(&none), Outcome::Refused(causes::ROOM));
}

#[test]
fn without_room_the_other_answers_at_a_subject_stay() {
    let full = |first: Vec<Node>| with_image_nodes(first, 4_096);
    let taken = |subject| case(Shape::Pair, subject, unit());
    assert_eq!(step_first(&full(taken(unit()))), WRONG);
    assert_eq!(step_first(&full(taken(name(0)))), Outcome::Waiting(0));
    assert_eq!(
        step_first(&full(taken(name(1)))),
        Outcome::Refused(causes::ROOM)
    );
    let smaller = full(taken(pair(unit(), unit())));
    assert!(matches!(
        step_first(&smaller),
        Outcome::Rule(rules::CASE_PAIR, _)
    ));
}

#[test]
fn in_an_image_the_body_has_two_variables_more_and_the_subject_none() {
    let sound = image_of(&[thread(&case(Shape::Pair, unit(), variable(1)))]);
    assert_eq!(step_first(&sound), WRONG);
    for broken in [
        case(Shape::Pair, unit(), variable(2)),
        case(Shape::List, variable(0), unit()),
        pair(variable(0), unit()),
        front(unit(), variable(0)),
    ] {
        let image = image_of(&[thread(&broken)]);
        assert_eq!(step_first(&image), Outcome::Refused(causes::IMAGE));
    }
    // an unknown tag is one from 14 on
    let mut unknown = image_of(&[thread(&unit())]);
    *unknown.last_mut().expect("a term") = 14;
    assert_eq!(step_first(&unknown), Outcome::Refused(causes::IMAGE));
}

#[test]
fn a_list_ends_in_a_future() {
    // case (1 :: s) of x :: r ⇒ case r of .. waits for the future s at its end
    let inner = case(Shape::List, variable(0), variable(1));
    let image = image_of(&[
        thread(&case(Shape::List, front(num(1), name(2)), inner)),
        Component::OpenHandle(2),
        Component::Future,
    ]);
    let (rule, after) = image_after(&image, 0);
    assert_eq!(rule, rules::CASE_LIST);
    assert_eq!(step_first(&after), Outcome::Waiting(2));
}

#[test]
fn a_name_of_a_once_type_stands_in_a_pair_at_most_once() {
    // 3: num once to unit, 4: the once pair of 3 and 3, 5: the once pair of 3 and num, 6: num to unit
    let file = recipe_2(&format!("{A} 030100 050303 050301 040100"), "03");
    let table = read_recipe(&file).expect("a recipe").table;
    let once = |y| (Subject::Name(y), table.get(3).expect("a type").clone());
    let has_type = |names: &[u8], nodes: Vec<Node>| {
        let gamma = names.iter().fold(Environment::default(), |gamma, y| {
            let (subject, alpha) = once(*y);
            gamma.with(subject, alpha)
        });
        let found = derive(&table, &gamma, &expression(&nodes));
        found.and_then(|found| table.number_of(&found))
    };
    let of = |t: u8, first, second| [vec![Node::Pair(t)], first, second].concat();
    assert_eq!(has_type(&[7, 8], of(4, name(7), name(8))), Some(4));
    assert_eq!(has_type(&[7], of(4, name(7), name(7))), None);
    assert_eq!(has_type(&[7], of(5, name(7), num(1))), Some(5));
    // under a many-lambda it may not stand
    let closed = [vec![Node::Lambda(6)], application(name(7), variable(0))].concat();
    assert_eq!(has_type(&[7], closed), None);
}
