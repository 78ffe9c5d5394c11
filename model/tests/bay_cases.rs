//! Document 01, "Bay cases" A to L, and document 02's cells that hold a handle.

mod common;

use common::*;
use model::causes;
use model::format::{bytes_of_hexadecimal, hexadecimal};
use model::load::{load, starting_image, Loaded};
use model::nodes::Node;
use model::rules;
use model::step::Outcome;
use model::types::Constant;
use model::verdict::{verdict, Verdict};

#[test]
fn case_a() {
    let file = bytes_of_hexadecimal("4C 46 01 02 0C 00 09 00 15 00 01 00 000000 010000 020100 03");
    assert_eq!(file, recipe(A, "03"));
    assert_eq!(verdict(&file), Verdict::Accepted(vec![0]));
    let image = starting_image(&file).unwrap();
    assert_eq!(hexadecimal(&image), "020002000E00030001001100010004000003");
}

#[test]
fn case_b() {
    let file = recipe(T5, "02 02 06 04 09 00 04 FA 00");
    assert_eq!(verdict(&file), Verdict::Accepted(vec![1]));
    let (answers, image) = run(&file, &[1]);
    assert_eq!(answers, [7]);
    assert_eq!(
        hexadecimal(&image),
        "020002000E00030001001100030004FA00040000"
    );
}

/// Cases A and B with a starting num (document 02, T-07).
#[test]
fn cases_a_and_b_in_edition_3() {
    let loaded = |starting: &str| starting_image(&recipe_3(A, starting, &["03"])).unwrap();
    assert_eq!(
        hexadecimal(&loaded("0000")),
        "020002000E00030001001100010004000003"
    );
    assert_eq!(
        hexadecimal(&loaded("FA00")),
        "020002000E00030001001100010004FA0003"
    );
    for (starting, before) in [("0000", "040000"), ("E803", "04E803"), ("FA00", "04FA00")] {
        let file = recipe_3(T5, starting, &["02 02 06 04 09 00 04 FA 00"]);
        assert_eq!(verdict(&file), Verdict::Accepted(vec![1]));
        let (answers, image) = run(&file, &[1]);
        assert_eq!(answers, [7]);
        // the setting is 250, and the thread is what it was
        assert_eq!(
            hexadecimal(&image),
            format!("020002000E00030001001100030004FA00{before}")
        );
    }
}

#[test]
fn case_c() {
    let file = recipe(T7, "02 08 06 01 05 01 04 02 00 00 00 01");
    assert_eq!(verdict(&file), Verdict::Accepted(vec![0]));
    let (answers, image) = run(&file, &[1, 1, 1, 1]);
    assert_eq!(answers, [4, 1, 1, 5]);
    let heads = "0400 02001A000300 01001D000100 01001E000200 040020000000";
    let expressions = "040000 03 0902";
    assert_eq!(
        image,
        bytes_of_hexadecimal(&format!("{heads}{expressions}"))
    );
}

#[test]
fn cases_d_to_i() {
    assert_eq!(number(&recipe(T7, "01 04 03")), 10);
    assert_eq!(number(&recipe(T7, "01 03 03")), 11);
    assert_eq!(number(&recipe(T7, "07 03")), 8);
    assert_eq!(number(&recipe(A, "02 03 03")), 9);
    assert_eq!(number(&recipe(A, "00 00")), 7);
    assert_eq!(number(&recipe(A, "04 E8 03")), 0);
    assert_eq!(number(&recipe(A, "04 E9 03")), 0);
    assert_eq!(number(&recipe(A, "04 FF FF")), 0);
    assert_eq!(number(&recipe(A, "04 FF")), 5);
}

#[test]
fn case_j_nesting() {
    assert_eq!(number(&recipe(UNIT_FUNCTION, &nested(100))), 0);
    assert_eq!(number(&recipe(UNIT_FUNCTION, &nested(101))), 6);
}

#[test]
fn case_j_nodes() {
    assert_eq!(number(&with_nodes(1_024)), 0);
    assert_eq!(number(&with_nodes(1_025)), 6);
}

#[test]
fn case_j_parts() {
    assert_eq!(number(&recipe_of(A, &["03"; 16])), 0);
    assert_eq!(number(&recipe_of(A, &["03"; 17])), 2);
}

#[test]
fn case_k_names() {
    let handle = application(constant(Constant::Handle), unit());
    let length = 2 + 6 * 256 + 7 + 253;
    assert_eq!(
        step_first(&with_names(handle.clone(), 254)),
        Outcome::Rule(rules::HANDLE_NEW, length)
    );
    assert_eq!(
        step_first(&with_names(handle, 255)),
        Outcome::Refused(causes::ROOM)
    );
}

#[test]
fn case_k_nodes() {
    let thread = application(constant(Constant::Thread), unit());
    let goes = step_first(&with_image_nodes(thread.clone(), 4_095));
    assert!(matches!(goes, Outcome::Rule(rules::THREAD_NEW, _)));
    assert_eq!(
        step_first(&with_image_nodes(thread, 4_096)),
        Outcome::Refused(causes::ROOM)
    );
}

#[test]
fn case_l() {
    let applied = [Node::Application, Node::Name(1), Node::Unit];
    assert_eq!(
        step_first(&image_of(&[thread(&applied), used_handle()])),
        Outcome::Refused(causes::USED_HANDLE)
    );
    assert_eq!(
        step_first(&image_of(&[thread(&applied), cell(&[Node::Unit])])),
        Outcome::Refused(causes::WRONG_KIND)
    );
}

/// After T5's first three, 3: num once to unit, a handle; 4: cell of 3; 5: 3 to unit; 6: num to 5;
/// 7: 6 to unit; 8: 4 to unit; 9: 3 to 4; 10: 3 to 3; 11: 4 to 10; 12: unit once to unit.
const PORT: &str = "000000 010000 020100 030100 020300 040300 040105 040600 040400 040304 040303 \
                    04040A 030000";

#[test]
fn a_cell_may_hold_a_handle() {
    assert_eq!(verdict(&recipe(PORT, "05 09")), Verdict::Accepted(vec![9]));
    // handle (λx. λh. exch (cell h) (λn. unit) 5)
    let kept = "02 08 07 01 06 01 05 02 02 02 06 0B 02 05 09 00 00 01 03 03 04 05 00";
    let (answers, image) = run(&recipe(PORT, kept), &[1; 6]);
    assert_eq!(answers, [4, 1, 1, 6, 7, 5]);
    let heads = "0500 020020000300 010023000100 010024000300 040027000000 020027000300";
    let expressions = "040000 03 040500 010303";
    assert_eq!(
        image,
        bytes_of_hexadecimal(&format!("{heads}{expressions}"))
    );
}

#[test]
fn a_second_handle_goes_in_and_the_first_is_applied() {
    // handle (λx. λh. (λr. handle (λy. λk. exch r k 5)) (cell h))
    let inner = "02 08 07 01 06 01 05 02 02 02 06 0B 00 02 00 00 04 05 00";
    let port = format!("02 08 07 01 06 01 05 02 01 08 {inner} 02 05 09 00 00");
    let (answers, image) = run(&recipe(PORT, &port), &[1; 10]);
    assert_eq!(answers, [4, 1, 1, 6, 1, 4, 1, 1, 7, 5]);
    let first = "0700 02002C000300 01002F000100 010030000300 040033000000";
    let second = "020033000200 050035000000 030535000000";
    let expressions = "040000 03 040500 0906";
    assert_eq!(
        image,
        bytes_of_hexadecimal(&format!("{first}{second}{expressions}"))
    );
}

#[test]
fn what_was_in_a_cell_is_still_usable_once() {
    let taken = "02 02 06 0B 02 05 09 01 03 03 01 03 03";
    // (λf. (λu. f 2) (f 1)), and with f 2 left out
    let twice = format!("02 01 05 02 01 0C 02 00 01 04 02 00 02 00 00 04 01 00 {taken}");
    assert_eq!(number(&recipe(PORT, &twice)), 10);
    let once = format!("02 01 05 02 00 00 04 01 00 {taken}");
    assert_eq!(number(&recipe(PORT, &once)), 0);
    // exch at a cell of 3 does not fit a setting
    assert_eq!(number(&recipe(PORT, "02 06 0B 09 00")), 9);
}

#[test]
fn a_load_needs_room() {
    let file = recipe(A, "03");
    let mut short = vec![7; 13_825];
    assert_eq!(load(&file, &mut short), Loaded::Refused(causes::BUFFER));
    assert_eq!(load(&[], &mut short), Loaded::Refused(causes::BUFFER));
    assert!(short.iter().all(|b| *b == 7));
    let mut enough = vec![7; 13_826];
    assert_eq!(load(&[], &mut enough), Loaded::Refused(causes::FILE_LENGTH));
    assert_eq!(load(&file, &mut enough), Loaded::Accepted(vec![0], 18));
    assert!(enough[18..].iter().all(|b| *b == 7));
}
