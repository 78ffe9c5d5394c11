//! The readings of document 01, an example each.

mod common;

use common::*;
use model::causes;
use model::config::Component;
use model::nodes::Node;
use model::rules;
use model::step::Outcome;
use model::types::Constant;

fn exch(first: Vec<Node>, second: Vec<Node>) -> Vec<Node> {
    application(application(constant(Constant::Exch), first), second)
}

fn name(y: u8) -> Vec<Node> {
    vec![Node::Name(y)]
}

#[test]
fn reading_1_a_file_shorter_than_its_pairs_is_refused_3() {
    let mut file = recipe(A, "03");
    file[3] = 17;
    assert_eq!(number(&file), 3);
    assert_eq!(number(&file[..12]), 3);
}

#[test]
fn reading_2_every_fault_of_the_table_is_refused_4() {
    for table in [
        "000000 010000 020000",
        "010000 000000 020100",
        "000000 010000 020100 020100",
        "000000 010000 020100 050000",
        "000000 010000 020100 000000",
        "000000 010000 020100 020301",
        "000000 010000 020100 020300",
        "000000 010000 020100 040300",
        "000000 010000 020100 040003",
        "000000 010000 020100 030000 030000",
    ] {
        assert_eq!(number(&recipe(table, "03")), 4, "{table}");
    }
}

#[test]
fn reading_3_causes_are_ordered_over_the_file() {
    let deep = nested(101);
    assert_eq!(number(&recipe(UNIT_FUNCTION, &deep)), 6);
    let cut = &deep[..deep.len() - 2];
    assert_eq!(number(&recipe(UNIT_FUNCTION, cut)), 5);
    assert_eq!(number(&recipe(UNIT_FUNCTION, &format!("{cut} 0A"))), 5);
    assert_eq!(number(&recipe(UNIT_FUNCTION, &format!("{cut} 0009"))), 6);
    assert_eq!(number(&recipe_of(UNIT_FUNCTION, &[&deep, "0A"])), 5);
    let many = "02 03".repeat(1_100);
    assert_eq!(number(&recipe(A, &many)), 5);
    assert_eq!(number(&recipe(A, &format!("{many} 03"))), 6);
}

#[test]
fn reading_4_the_many_lambda_that_binds_does_not_count() {
    assert_eq!(number(&recipe(T7, "01 04 02 00 00 04 00 00")), 0);
}

#[test]
fn reading_5_contents_of_either_multiplicity_but_futures_of_many() {
    // 3: unit once to unit, 4: cell of 3, 5: 4 to unit
    let table = format!("{A} 030000 020300 040400");
    assert_eq!(number(&recipe(&table, "01 05 03")), 0);
    // 6: 3 to cell of 3
    let table = format!("{table} 040304");
    assert_eq!(number(&recipe(&table, "05 06")), 0);
    // 7: 3 to 3, 8: cell of 3 to (3 to 3)
    let table = format!("{table} 040303 040407");
    assert_eq!(number(&recipe(&table, "06 08")), 0);
    // a setting is a cell of num
    assert_eq!(number(&recipe(&table, "02 06 08 09 00")), 9);
    // 9: (3 to 3) to 3
    let table = format!("{table} 040703");
    assert_eq!(number(&recipe(&table, "07 09")), 8);
    // 10: 3 once to unit, 11: 10 to unit, 12: 3 to 11, 13: 12 to unit
    let table = format!("{table} 030300 040A00 04030B 040C00");
    assert_eq!(number(&recipe(&table, "08 0D")), 8);
}

#[test]
fn reading_6_no_nesting_limit_and_no_names() {
    let deep = application(vec![Node::Lambda(0), Node::Unit], unit());
    assert!(matches!(
        step_first(&with_image_nodes(deep, 4_096)),
        Outcome::Rule(rules::BETA, _)
    ));
    assert_eq!(step_first(&[0, 0]), Outcome::Refused(causes::NO_THREAD));
    assert_eq!(step_first(&[0]), Outcome::Refused(causes::IMAGE));
    assert_eq!(step_first(&[0, 0, 0]), Outcome::Refused(causes::IMAGE));
}

#[test]
fn reading_7_the_order_of_12_13_14_and_large_numbers() {
    let mut short = vec![0; 13_825];
    assert_eq!(
        model::step::step(&[], 9, &mut short),
        Outcome::Refused(causes::BUFFER)
    );
    assert_eq!(step_thread(&[], 9), Outcome::Refused(causes::IMAGE));
    let image = image_of(&[thread(&unit())]);
    assert_eq!(step_thread(&image, 0), Outcome::Done);
    for number in [1, 256, 65_536, 1 << 32, u64::MAX, u64::MAX - 255] {
        assert_eq!(
            step_thread(&image, number),
            Outcome::Refused(causes::NO_THREAD)
        );
    }
}

#[test]
fn reading_8_cells_hold_values_in_the_sense_of_a_step() {
    let exch_unit = application(constant(Constant::Exch), unit());
    let sound = image_of(&[thread(&unit()), cell(&exch_unit)]);
    assert_eq!(step_first(&sound), Outcome::Done);
    let twice = application(constant(Constant::Exch), exch_unit);
    assert_eq!(
        step_first(&image_of(&[thread(&unit()), cell(&twice)])),
        Outcome::Done
    );
    let full = exch(name(1), unit());
    assert_eq!(
        step_first(&image_of(&[thread(&unit()), cell(&full)])),
        Outcome::Refused(causes::IMAGE)
    );
    let thread_unit = application(constant(Constant::Thread), unit());
    assert_eq!(
        step_first(&image_of(&[thread(&unit()), cell(&thread_unit)])),
        Outcome::Refused(causes::IMAGE)
    );
}

#[test]
fn reading_9_what_is_no_cell_in_a_full_exch_is_17() {
    let needing = thread(&exch(name(1), unit()));
    let used = image_of(&[needing.clone(), Component::UsedHandle]);
    assert_eq!(step_first(&used), Outcome::Refused(causes::WRONG_KIND));
    let open = image_of(&[needing, Component::OpenHandle(2), Component::Future]);
    assert_eq!(step_first(&open), Outcome::Refused(causes::WRONG_KIND));
    let exch_unit = application(constant(Constant::Exch), unit());
    let lambda = vec![Node::Lambda(0), Node::Unit];
    let num = vec![Node::Num(1)];
    for first in [unit(), num, lambda, constant(Constant::Cell), exch_unit] {
        let image = image_of(&[thread(&exch(first, unit()))]);
        assert_eq!(step_first(&image), Outcome::Refused(causes::WRONG_KIND));
    }
}

#[test]
fn reading_10_a_thread_that_needs_itself_waits_for_itself() {
    let own = image_of(&[thread(&application(name(0), unit()))]);
    assert_eq!(step_first(&own), Outcome::Waiting(0));
    let stuck = thread(&application(unit(), unit()));
    let image = image_of(&[thread(&application(name(1), unit())), stuck]);
    assert_eq!(step_first(&image), Outcome::Waiting(1));
    let future = [
        thread(&exch(name(2), unit())),
        Component::OpenHandle(2),
        Component::Future,
    ];
    assert_eq!(step_first(&image_of(&future)), Outcome::Waiting(2));
}

#[test]
fn reading_11_rule_3_copies_one_link() {
    let needing = application(name(1), unit());
    let image = image_of(&[
        thread(&needing),
        thread(&name(2)),
        thread(&constant(Constant::Cell)),
    ]);
    let (rule, after) = image_after(&image, 0);
    let once = application(name(2), unit());
    let link = image_of(&[
        thread(&once),
        thread(&name(2)),
        thread(&constant(Constant::Cell)),
    ]);
    assert_eq!((rule, after), (rules::FUTURE_DEREF, link));
}

#[test]
fn reading_12_thread_handle_and_cell_take_any_value() {
    for (constant_tag, rule) in [
        (Constant::Thread, rules::THREAD_NEW),
        (Constant::Handle, rules::HANDLE_NEW),
        (Constant::Cell, rules::CELL_NEW),
    ] {
        let image = image_of(&[thread(&application(constant(constant_tag), unit()))]);
        let (answered, after) = image_after(&image, 0);
        assert_eq!(answered, rule);
        if rule == rules::THREAD_NEW {
            assert_eq!(step_thread(&after, 1), Outcome::Refused(causes::WRONG_KIND));
        }
    }
}

#[test]
fn reading_13_without_room_the_other_answers_stay() {
    let applied = |function: Vec<Node>| application(function, unit());
    let full = |first: Vec<Node>| with_image_nodes(first, 4_096);
    assert_eq!(step_first(&full(unit())), Outcome::Done);
    assert_eq!(step_first(&full(applied(name(0)))), Outcome::Waiting(0));
    assert_eq!(
        step_first(&full(applied(unit()))),
        Outcome::Refused(causes::WRONG_KIND)
    );
    assert_eq!(
        step_first(&full(applied(constant(Constant::Thread)))),
        Outcome::Refused(causes::ROOM)
    );
    assert_eq!(
        step_first(&full(applied(name(1)))),
        Outcome::Refused(causes::ROOM)
    );
    let smaller = full(applied(constant(Constant::Cell)));
    assert!(matches!(
        step_first(&smaller),
        Outcome::Rule(rules::CELL_NEW, _)
    ));
    let names = with_names(applied(constant(Constant::Cell)), 256);
    assert_eq!(step_first(&names), Outcome::Refused(causes::ROOM));
    let names = with_names(applied(vec![Node::Lambda(0), Node::Unit]), 256);
    assert!(matches!(step_first(&names), Outcome::Rule(rules::BETA, _)));
}

#[test]
fn reading_14_a_longer_slice_breaks_a_limit() {
    let image = with_image_nodes(unit(), 4_096);
    assert_eq!(step_first(&image), Outcome::Done);
    let nums = vec![thread(&[Node::Num(1)]); 256];
    let mut longest = image_of(&nums);
    assert_eq!(step_first(&longest), Outcome::Done);
    longest.resize(13_827, 3);
    assert_eq!(step_first(&longest), Outcome::Refused(causes::IMAGE));
    assert_eq!(
        step_first(&with_image_nodes(unit(), 4_097)),
        Outcome::Refused(causes::IMAGE)
    );
    assert_eq!(
        step_first(&with_names(unit(), 257)),
        Outcome::Refused(causes::IMAGE)
    );
}
