//! Document 01, "Three plausible mistakes".

mod common;

use common::*;
use model::nodes::Node;
use model::step::Outcome;

/// 3: num once to unit, 4: num to unit, 5: from 3 to 4, 6: from 3 to 3; 4, 5 and 6 many times.
const CLOSING: &str = "000000 010000 020100 030100 040100 040304 040303";

#[test]
fn a_many_lambda_may_not_close_over_a_once_variable() {
    // λx:3. λy. x y, where the inner lambda can be used many times
    assert_eq!(number(&recipe(CLOSING, "01 05 01 04 02 00 01 00 00")), 10);
    // the same where the inner lambda can be used once
    assert_eq!(number(&recipe(CLOSING, "01 06 01 03 02 00 01 00 00")), 0);
}

#[test]
fn a_future_in_argument_place_is_not_followed() {
    let identity = vec![Node::Lambda(0), Node::Variable(0)];
    let applied = application(identity, vec![Node::Name(1)]);
    let image = image_of(&[thread(&applied), thread(&unit())]);
    let (rule, after) = image_after(&image, 0);
    assert_eq!(rule, 1);
    assert_eq!(
        after,
        image_of(&[thread(&[Node::Name(1)]), thread(&unit())])
    );
    assert_eq!(step_first(&after), Outcome::Done);
}

#[test]
fn a_name_bound_to_itself_is_bound() {
    let file = recipe(T7, "02 08 06 01 05 01 04 02 00 00 00 01");
    let (_, image) = run(&file, &[1, 1, 1, 1]);
    assert_eq!(step_thread(&image, 2), Outcome::Done);
    let needing = application(vec![Node::Name(1)], unit());
    let image = image_of(&[thread(&needing), thread(&[Node::Name(1)])]);
    let (rule, after) = image_after(&image, 0);
    assert_eq!((rule, &after), (3, &image));
    assert_eq!(image_after(&after, 0), (3, image));
}
