//! Document 02, T-09, "Separate bays": what the second loader refuses, and where the second stepper lacks
//! room.

mod common;

use common::*;
use model::answers::{Implementation, LoadedAnswer, Model, Plain, SteppedAnswer};
use model::causes;
use model::command::on_deep_stack;
use model::comparison::Comparison;
use model::config::{Component, Configuration};
use model::draw::Draw;
use model::editions::{ALL, FIRST, SECOND, THIRD};
use model::examples;
use model::format::{bytes_of_hexadecimal, hexadecimal};
use model::generate::images::thread_number;
use model::generate::{images, separate, shares};
use model::image::{read_image, write_image};
use model::limits::{MAX_BAYS, MAX_IMAGE, MAX_NAMES, MAX_NODES};
use model::load::{load_in, Loaded};
use model::nodes::Node;
use model::profile::{bays, owned, share, Amount, Profile};
use model::reduce::{move_of, Move};
use model::rules;
use model::step::{step, step_in, Outcome};
use model::types::Constant;
use std::collections::BTreeMap;

/// A load of either profile: the model's and the plain twin's, which write the same.
fn loaded(profile: Profile, file: &[u8], room: usize) -> (LoadedAnswer, Vec<u8>) {
    let mut out: Vec<u8> = (0..room).map(|at| at as u8).collect();
    let mut plain_out = out.clone();
    let answer = Model.load_in(profile, file, &mut out).expect("a loader");
    let plain = Plain.load_in(profile, file, &mut plain_out);
    assert_eq!(plain, Some(answer), "{}", hexadecimal(file));
    assert!(plain_out == out, "the plain twin: {}", hexadecimal(file));
    (answer, out)
}

/// What the separate profile's loader refuses, or 0. A refusal has no other field and writes nothing; what
/// is not refused is loaded as the common loader does it.
fn refusal(file: &[u8]) -> u32 {
    let (answer, out) = loaded(Profile::Separate, file, MAX_IMAGE);
    if answer.refusal == 0 {
        assert_eq!((answer, out), loaded(Profile::Common, file, MAX_IMAGE));
    } else {
        let nothing = LoadedAnswer {
            refusal: answer.refusal,
            ..LoadedAnswer::default()
        };
        assert_eq!(answer, nothing);
        assert!(out.iter().enumerate().all(|(at, byte)| *byte == at as u8));
    }
    answer.refusal
}

/// A step of the separate profile, the model's and the plain twin's.
fn stepped(image: &[u8], thread: u64) -> (SteppedAnswer, Vec<u8>) {
    on_deep_stack(|| {
        let mut out = vec![7; MAX_IMAGE];
        let mut plain_out = out.clone();
        let answer = Model.step_separate(image, thread, &mut out);
        let plain = Plain.step_separate(image, thread, &mut plain_out);
        assert_eq!(plain, answer, "{}", hexadecimal(image));
        assert!(plain_out == out, "the plain twin: {}", hexadecimal(image));
        (answer.expect("a stepper"), out)
    })
}

/// A step of the separate profile; 15 writes nothing.
fn step_apart(image: &[u8], thread: u64) -> Outcome {
    let (_, out) = stepped(image, thread);
    let mut model_out = vec![7; MAX_IMAGE];
    let outcome =
        on_deep_stack(|| step_in(Profile::Separate, image, thread, &mut model_out.clone()));
    match outcome {
        Outcome::Rule(..) => {
            on_deep_stack(|| step(image, thread, &mut model_out));
            assert!(out == model_out, "the common step writes the same");
        }
        _ => assert!(out.iter().all(|byte| *byte == 7)),
    }
    outcome
}

/// Whether a rule moves the thread; else there is no room.
fn goes(image: &[u8], thread: u64) -> bool {
    match step_apart(image, thread) {
        Outcome::Rule(..) => true,
        NO_ROOM => false,
        other => panic!("{other:?}"),
    }
}

const NO_ROOM: Outcome = Outcome::Refused(causes::ROOM);

/// The image of these components, each with its owner; that of an open handle is not written.
fn of_bays(owned: &[(u8, Component)]) -> Vec<u8> {
    let (owners, components) = owned.iter().cloned().unzip();
    write_image(&Configuration { components, owners })
}

fn name(y: u8) -> Vec<Node> {
    vec![Node::Name(y)]
}

/// A value of that many nodes: pairs of pairs, so that it is not deep.
fn value(nodes: usize) -> Vec<Node> {
    match nodes {
        1 => unit(),
        2 => vec![Node::Lambda(0), Node::Unit],
        _ => {
            let first = (nodes - 1) / 2;
            let pair = vec![Node::Pair(0)];
            [pair, value(first), value(nodes - 1 - first)].concat()
        }
    }
}

/// exch y v
fn exchange(y: u8, v: Vec<Node>) -> Vec<Node> {
    application(application(constant(Constant::Exch), name(y)), v)
}

/// (λx. unit) v
fn drops(v: Vec<Node>) -> Vec<Node> {
    application(vec![Node::Lambda(0), Node::Unit], v)
}

/// thread v: rule 2 adds a name and a node.
fn spawns() -> Vec<Node> {
    application(constant(Constant::Thread), unit())
}

/// "4,096 divided by b nodes and 256 divided by b names, rounded down"
#[test]
fn the_shares() {
    let nodes = [
        4_096, 2_048, 1_365, 1_024, 819, 682, 585, 512, 455, 409, 372, 341, 315, 292, 273, 256,
    ];
    let names = [
        256, 128, 85, 64, 51, 42, 36, 32, 28, 25, 23, 21, 19, 18, 17, 16,
    ];
    for b in 1..=MAX_BAYS {
        let due = Amount {
            names: names[b - 1],
            nodes: nodes[b - 1],
        };
        assert_eq!(share(b), due);
        assert!(b * due.names <= MAX_NAMES && b * due.nodes <= MAX_NODES);
    }
}

/// 3 num →ω num, 4 num ref →ω 3, 5 unit →ω num, 6 num →ω num ref.
const TABLE: &str = "000000 010000 020100 040101 040203 040001 040102";
/// exch setting k 5, two digits for k.
fn exchanges(k: usize) -> String {
    format!("02 02 06 04 09 {k:02X} 04 05 00")
}

/// "In this profile bay k's terms name only setting k."
#[test]
fn a_bay_names_only_its_own_setting() {
    for bays in 1..=MAX_BAYS {
        let terms: Vec<String> = (0..bays).map(exchanges).collect();
        for bay in 0..bays {
            for k in 0..=bays {
                let mut terms: Vec<&str> = terms.iter().map(String::as_str).collect();
                let other = exchanges(k);
                terms[bay] = &other;
                let file = recipe_of(TABLE, &terms);
                let due = match k {
                    _ if k == bay => 0,
                    _ if k == bays => causes::SCOPE,
                    _ => causes::OTHER_SETTING,
                };
                assert_eq!(refusal(&file), due, "bay {bay} of {bays} names {k}");
            }
        }
    }
}

/// Every node 9 of a term, reached or not: at the root, under lambdas, in functions and arguments.
#[test]
fn a_name_anywhere_in_a_term() {
    let terms = [
        "09 K",
        // λx:unit. exch K 5
        "01 05 02 02 06 04 09 K 04 05 00",
        // (λx:num. 5) (exch K 5)
        "02 01 03 04 05 00 02 02 06 04 09 K 04 05 00",
        // (λx:num. exch K x) 5
        "02 01 03 02 02 06 04 09 K 00 00 04 05 00",
        // exch (cell (exch K 5)) 5
        "02 02 06 04 02 05 06 02 02 06 04 09 K 04 05 00 04 05 00",
        // exch K, a value
        "02 06 04 09 K",
    ];
    for term in terms {
        for (own, other) in [(0, "01"), (1, "00")] {
            let of = |k: &str| {
                let mut terms = ["03".to_owned(), "03".to_owned()];
                terms[own] = term.replace('K', k);
                let terms: Vec<&str> = terms.iter().map(String::as_str).collect();
                recipe_of(TABLE, &terms)
            };
            assert_eq!(refusal(&of(&format!("{own:02X}"))), 0, "{term}");
            assert_eq!(refusal(&of(other)), causes::OTHER_SETTING, "{term}");
        }
    }
}

/// The same in pairs, list fronts and cases, for editions 2 and 3.
#[test]
fn a_name_in_pairs_lists_and_cases() {
    // 3 cell of num × unit, 4 its function, 5 list of cells, 6 its function
    let table = "000000 010000 020100 060200 040303 080200 040505";
    let terms = [
        "0A 03 09 K 03",
        "0C 0A 03 09 K 03 03",
        "0C 0A 03 09 00 03 09 K",
        // λl. K :: l
        "01 06 0B 05 09 K 00 00",
        // λl. case l of x :: y ⇒ K :: y
        "01 06 0D 00 00 0B 05 09 K 00 00",
        // λp. case p of (x, y) ⇒ (K, y)
        "01 04 0C 00 00 0A 03 09 K 00 00",
    ];
    for term in terms {
        for k in ["00", "01"] {
            let terms = [term.replace('K', k), "03".to_owned()];
            let terms: Vec<&str> = terms.iter().map(String::as_str).collect();
            let due = match k {
                "00" => 0,
                _ => causes::OTHER_SETTING,
            };
            assert_eq!(refusal(&file_of(SECOND.number, table, &terms)), due);
            assert_eq!(refusal(&recipe_3(table, "0100 FFFF", &terms)), due);
        }
    }
}

/// A term of that many nodes.
fn term_of(nodes: usize) -> String {
    let (wide, rest) = ((nodes - 1) / 3, (nodes - 1) % 3);
    let body = branches(wide);
    match rest {
        0 => body,
        1 => format!("01 03 {body}"),
        _ => format!("01 04 01 03 {body}"),
    }
}

/// A term of type unit with 1 + 3 × count nodes whose nesting stays low: (λx. e) e', halves of the rest.
fn branches(count: usize) -> String {
    match count {
        0 => "03".to_owned(),
        _ => {
            let left = (count - 1) / 2;
            let (left, right) = (branches(left), branches(count - 1 - left));
            format!("02 01 03 {left} {right}")
        }
    }
}

/// Entry 3 unit to unit, entry 4 unit to that.
const BRANCHES: &str = "000000 010000 020100 040000 040003";

/// So many bays: that one with a term of so many nodes, the others unit; a file of that edition.
fn with_bay_of(edition: u8, bays: usize, bay: usize, nodes: usize) -> Vec<u8> {
    let long = term_of(nodes);
    let mut terms = vec!["03"; bays];
    terms[bay] = &long;
    let starting = "0000".repeat(bays);
    match edition {
        3 => recipe_3(BRANCHES, &starting, &terms),
        _ => file_of(edition, BRANCHES, &terms),
    }
}

/// "a bay that starts above its share": the setting's node counts too. With 16 bays a term of 255 nodes
/// starts, and one of 256 does not.
#[test]
fn a_bay_starts_within_its_share() {
    for edition in ALL {
        let at = |bays, bay, nodes| refusal(&with_bay_of(edition.number, bays, bay, nodes));
        assert_eq!(at(16, 0, 255), 0);
        assert_eq!(at(16, 15, 255), 0);
        assert_eq!(at(16, 0, 256), causes::SHARE);
        assert_eq!(at(16, 15, 256), causes::SHARE);
        for b in separate::FEWEST_ABOVE..=MAX_BAYS {
            let most = MAX_NODES / b - 1;
            for bay in [0, b / 2, b - 1] {
                assert_eq!(at(b, bay, most), 0, "{b}");
                assert_eq!(at(b, bay, most + 1), causes::SHARE, "{b}");
            }
        }
    }
}

/// With up to four bays no accepted recipe starts above its share.
#[test]
fn few_bays_have_room_for_every_recipe() {
    for b in 1..separate::FEWEST_ABOVE {
        let nodes = 1_024 - (b - 1);
        assert_eq!(refusal(&with_bay_of(FIRST.number, b, 0, nodes)), 0);
        assert_eq!(
            refusal(&with_bay_of(FIRST.number, b, 0, nodes + 1)),
            causes::TERM_SIZE
        );
        assert!(nodes < share(b).nodes);
    }
}

/// "both after 19": 12, then 1 to 11, 19, then 20 over all bays, then 21.
#[test]
fn the_order_of_the_refusals() {
    let long = term_of(256);
    let with = |first: &str, last: &str| {
        let mut terms = vec!["03"; 16];
        terms[0] = first;
        terms[15] = last;
        recipe_of(BRANCHES, &terms)
    };
    // 20 before 21, whichever bay has which
    assert_eq!(refusal(&with(&long, "09 0F")), causes::SHARE);
    assert_eq!(refusal(&with(&long, "09 00")), causes::OTHER_SETTING);
    assert_eq!(refusal(&with("09 0F", &long)), causes::OTHER_SETTING);
    // 12 before both
    for file in [with(&long, "03"), with("09 0F", "03")] {
        let (answer, out) = loaded(Profile::Separate, &file, MAX_IMAGE - 1);
        assert_eq!(answer.refusal, causes::BUFFER);
        assert!(out.iter().enumerate().all(|(at, byte)| *byte == at as u8));
        assert_eq!(loaded(Profile::Separate, &file, 0).0.refusal, 12);
    }
    // 7, 9, 10 and 11 of another bay
    let t7 = |last: &str| recipe_of(T7, &["09 01", last]);
    assert_eq!(refusal(&t7("03")), causes::OTHER_SETTING);
    assert_eq!(refusal(&t7("09 02")), causes::SCOPE);
    assert_eq!(refusal(&t7("07 03")), causes::ANNOTATION);
    assert_eq!(refusal(&t7("02 03 03")), causes::TYPE);
    assert_eq!(refusal(&t7("01 04 03")), causes::LINEARITY);
    assert_eq!(refusal(&t7("01 03 03")), causes::BAY_ONCE);
    assert_eq!(refusal(&t7("03 03")), causes::NO_TERM);
    // 19
    for (starting, due) in [
        ("0000 0000", causes::OTHER_SETTING),
        ("0000", causes::STARTING),
    ] {
        assert_eq!(refusal(&recipe_3(A, starting, &["09 01", "03"])), due);
    }
    let above = |starting: &str| {
        let mut terms = vec!["03"; 16];
        terms[3] = &long;
        recipe_3(BRANCHES, starting, &terms)
    };
    assert_eq!(refusal(&above(&"0000".repeat(16))), causes::SHARE);
    assert_eq!(refusal(&above(&"0000".repeat(15))), causes::STARTING);
}

/// "otherwise like the first ones": the examples that name only their own settings, and drawn recipes.
#[test]
fn what_is_accepted_is_loaded_as_by_the_common_loader() {
    let mut counts: BTreeMap<u32, usize> = BTreeMap::new();
    for example in examples::all() {
        *counts.entry(refusal(&example.file())).or_default() += 1;
    }
    let mut draw = Draw::new(1);
    for _ in 0..2_000 {
        let file = separate::file(&mut draw);
        let (common, _) = loaded(Profile::Common, &file, MAX_IMAGE);
        let number = refusal(&file);
        assert!(common.refusal == number || (common.refusal == 0 && number >= 20));
        *counts.entry(number).or_default() += 1;
    }
    println!("{counts:?}");
    for number in [0, causes::OTHER_SETTING, causes::SHARE] {
        assert!(counts[&number] > 150, "{counts:?}");
    }
}

/// A component of each kind whose owner can make b.
fn marks(owner: u8) -> [Vec<(u8, Component)>; 4] {
    [
        vec![(owner, thread(&unit()))],
        vec![(owner, cell(&unit()))],
        vec![(owner, used_handle())],
        vec![
            (owner, Component::Future),
            (owner, Component::OpenHandle(1)),
        ],
    ]
}

/// "The stepper takes b as one more than the highest owner in the image", gaps included, whoever it is.
#[test]
fn b_is_one_more_than_the_highest_owner() {
    for highest in 1..MAX_BAYS as u8 {
        for mark in marks(highest) {
            let most = share(usize::from(highest) + 1).nodes;
            let image = |nodes: usize| {
                let first = (0, thread(&spawns()));
                let rest = (0, thread(&value(nodes - spawns().len())));
                let all = [vec![first], mark.clone(), vec![rest]].concat();
                of_bays(&all)
            };
            let read = read_image(&image(most)).expect("sound");
            assert_eq!(bays(&read), usize::from(highest) + 1);
            assert!(goes(&image(most - 1), 0));
            assert!(!goes(&image(most), 0));
        }
    }
}

/// b is not the number of bays that own something.
#[test]
fn gaps_count() {
    let image = |second: u8, nodes: usize| {
        of_bays(&[
            (0, thread(&spawns())),
            (second, thread(&unit())),
            (0, cell(&value(nodes - spawns().len()))),
        ])
    };
    assert!(goes(&image(1, 2_047), 0));
    assert!(!goes(&image(1, 2_048), 0));
    assert!(!goes(&image(2, 2_047), 0));
    assert!(!goes(&image(2, 1_365), 0));
    assert!(goes(&image(2, 1_364), 0));
    assert!(!goes(&image(15, 256), 0));
    assert!(goes(&image(15, 255), 0));
}

/// One bay: the common limits.
#[test]
fn one_bay_has_everything() {
    let at = |nodes: usize| with_image_nodes(spawns(), nodes);
    assert!(goes(&at(4_095), 0));
    assert!(!goes(&at(4_096), 0));
    let handle = application(constant(Constant::Handle), unit());
    assert!(goes(&with_names(handle.clone(), 254), 0));
    assert!(!goes(&with_names(handle, 255), 0));
}

/// An image of bay 15 in which it has so many names, its thread 0 first.
fn with_own_names(first: Vec<Node>, names: usize, filler: &[(u8, Component)]) -> Vec<u8> {
    let mut all = vec![(15, thread(&first))];
    while all.len() < names {
        all.extend_from_slice(&filler[..filler.len().min(names - all.len())]);
    }
    of_bays(&all)
}

/// Names: 256 / 16 = 16 of them; rules 2 and 6 make one, rule 4 two.
#[test]
fn names_of_every_kind_count() {
    let applied = |c| application(constant(c), unit());
    let fillers = [
        vec![(15, thread(&unit()))],
        vec![(15, cell(&unit()))],
        vec![(15, used_handle())],
    ];
    for filler in &fillers {
        for (c, new) in [
            (Constant::Thread, 1),
            (Constant::Cell, 1),
            (Constant::Handle, 2),
        ] {
            assert!(goes(&with_own_names(applied(c), 16 - new, filler), 0));
            assert!(!goes(&with_own_names(applied(c), 17 - new, filler), 0));
            // others' names do not count
            let others = vec![(14, used_handle()); 10];
            let mut all = vec![(15, thread(&applied(c)))];
            all.extend(vec![filler[0].clone(); 15 - new]);
            all.extend(others.clone());
            assert!(goes(&of_bays(&all), 0));
            all.push(filler[0].clone());
            assert!(!goes(&of_bays(&all), 0));
        }
    }
}

/// An open handle counts for its future's owner: not for nobody, and not for its own byte.
#[test]
fn open_handles_count_for_their_futures_owner() {
    let image = |pairs: u8, more: usize| {
        let mut all = vec![(15, thread(&spawns()))];
        for pair in 0..pairs {
            all.push((15, Component::Future));
            all.push((0, Component::OpenHandle(1 + 2 * pair)));
        }
        all.extend(vec![(15, used_handle()); more]);
        of_bays(&all)
    };
    assert!(goes(&image(7, 0), 0));
    assert!(!goes(&image(7, 1), 0));
    assert!(goes(&image(6, 2), 0));
    assert!(!goes(&image(6, 3), 0));
    // a future of bay 0 whose handle stands among the names of others
    let mut all = vec![
        (15, thread(&spawns())),
        (0, Component::Future),
        (15, Component::OpenHandle(1)),
    ];
    all.extend(vec![(15, used_handle()); 14]);
    assert!(goes(&of_bays(&all), 0));
    all.push((15, used_handle()));
    assert!(!goes(&of_bays(&all), 0));
}

/// Nodes: 4,096 / 16 = 256 of them, in cells and threads; a setting's too.
#[test]
fn nodes_of_cells_and_threads_count() {
    for holder in [cell, thread] {
        let image = |nodes: usize| {
            of_bays(&[
                (15, cell(&[Node::Num(0)])),
                (15, thread(&spawns())),
                (15, holder(&value(nodes - 1 - spawns().len()))),
                (3, thread(&value(200))),
            ])
        };
        assert!(goes(&image(255), 1));
        assert!(!goes(&image(256), 1));
    }
}

/// "leaves any bay above its share": also one that the rule does not touch, and that was above before.
#[test]
fn an_untouched_bay_above_its_share() {
    for above in [0, 7, 14] {
        let with = |more: Component, times: usize| {
            let mut all = vec![(15, thread(&drops(unit())))];
            all.extend(vec![(above, more); times]);
            of_bays(&all)
        };
        assert!(goes(&with(thread(&value(256)), 1), 0));
        assert!(!goes(&with(thread(&value(257)), 1), 0));
        assert!(!goes(&with(cell(&value(257)), 1), 0));
        assert!(goes(&with(used_handle(), 16), 0));
        assert!(!goes(&with(used_handle(), 17), 0));
    }
}

/// Only the outcome counts: a rule that brings a bay back to its share goes.
#[test]
fn a_rule_that_brings_a_bay_back() {
    // unit comes of 4 + v nodes
    let image = |rest: usize, v: usize| {
        of_bays(&[
            (15, thread(&drops(value(v)))),
            (15, cell(&value(rest))),
            (0, thread(&unit())),
        ])
    };
    assert!(goes(&image(255, 1), 0));
    assert!(goes(&image(255, 200), 0));
    assert!(!goes(&image(256, 1), 0));
    assert!(!goes(&image(256, 200), 0));
    // not so far
    let two = drops(drops(value(30)));
    let twice = |rest: usize| {
        of_bays(&[
            (
                15,
                thread(&application(vec![Node::Lambda(0), Node::Unit], two.clone())),
            ),
            (15, cell(&value(rest))),
        ])
    };
    // (λ. unit) ((λ. unit) ((λ. unit) v)): after one step 1 + 2 + 1 + 2 + 1 nodes
    assert!(goes(&twice(249), 0));
    assert!(!goes(&twice(250), 0));
}

/// "an image handed in above its shares is no broken image": the other answers stay.
#[test]
fn an_image_above_its_shares() {
    let image = of_bays(&[
        (15, thread(&value(300))),
        (15, thread(&application(name(0), unit()))),
        (0, thread(&unit())),
        (0, cell(&unit())),
        (0, thread(&application(name(5), unit()))),
        (1, Component::Future),
        (1, Component::OpenHandle(5)),
        (2, used_handle()),
        (2, thread(&application(name(7), unit()))),
        (2, thread(&application(name(3), unit()))),
        (2, thread(&drops(unit()))),
    ]);
    let due = [
        (0, Outcome::Done),
        (1, NO_ROOM),
        (2, Outcome::Done),
        (3, Outcome::Refused(causes::NO_THREAD)),
        (4, Outcome::Waiting(5)),
        (5, Outcome::Refused(causes::NO_THREAD)),
        (8, Outcome::Refused(causes::USED_HANDLE)),
        (9, Outcome::Refused(causes::WRONG_KIND)),
        (10, NO_ROOM),
        (11, Outcome::Refused(causes::NO_THREAD)),
        (u64::MAX, Outcome::Refused(causes::NO_THREAD)),
    ];
    for (thread, outcome) in due {
        assert_eq!(step_apart(&image, thread), outcome, "{thread}");
    }
    let mut short = vec![0; MAX_IMAGE - 1];
    for thread in [0, 1, 3] {
        assert_eq!(
            step_in(Profile::Separate, &image, thread, &mut short),
            Outcome::Refused(causes::BUFFER)
        );
    }
    let mut broken = image.clone();
    broken.push(0);
    assert_eq!(step_apart(&broken, 1), Outcome::Refused(causes::IMAGE));
    assert_eq!(step_apart(&[], 0), Outcome::Refused(causes::IMAGE));
    let empty = bytes_of_hexadecimal("0000");
    assert_eq!(step_apart(&empty, 0), Outcome::Refused(causes::NO_THREAD));
}

/// Rule 5 moves the value's nodes to the future's bay.
#[test]
fn a_value_bound_in_another_bay() {
    let image = |rest: usize, v: usize| {
        of_bays(&[
            (0, thread(&application(name(2), value(v)))),
            (15, Component::Future),
            (15, Component::OpenHandle(1)),
            (15, cell(&value(rest))),
        ])
    };
    assert!(goes(&image(246, 10), 0));
    assert!(!goes(&image(247, 10), 0));
    assert!(!goes(&image(246, 11), 0));
    // the binder's bay had been above
    assert!(goes(&image(1, 255), 0));
    assert!(!goes(&image(2, 255), 0));
}

/// Rule 7 moves the new value to the cell's bay, and the old one to the thread's.
#[test]
fn a_cell_exchanged_in_another_bay() {
    let image = |(own, other): (usize, usize), (new, old): (usize, usize)| {
        of_bays(&[
            (0, thread(&exchange(1, value(new)))),
            (15, cell(&value(old))),
            (15, cell(&value(other))),
            (0, cell(&value(own))),
        ])
    };
    // the cell's bay
    assert!(goes(&image((1, 236), (20, 1)), 0));
    assert!(!goes(&image((1, 237), (20, 1)), 0));
    assert!(goes(&image((1, 255), (1, 20)), 0));
    // the thread's bay
    assert!(goes(&image((236, 1), (1, 20)), 0));
    assert!(!goes(&image((237, 1), (1, 20)), 0));
    assert!(goes(&image((255, 1), (200, 1)), 0));
    assert!(!goes(&image((256, 1), (200, 1)), 0));
}

/// Rule 3 copies another bay's value.
#[test]
fn a_value_of_another_bay() {
    let image = |rest: usize, v: usize| {
        of_bays(&[
            (0, thread(&application(name(1), unit()))),
            (15, thread(&value(v))),
            (0, cell(&value(rest))),
        ])
    };
    // 1 + v + 1 nodes
    assert!(goes(&image(54, 200), 0));
    assert!(!goes(&image(55, 200), 0));
}

/// Rule 6 gives the value to the new cell, in the same bay: one node less.
#[test]
fn a_new_cell() {
    let image = |rest: usize| {
        let makes = application(constant(Constant::Cell), value(30));
        of_bays(&[
            (0, thread(&makes)),
            (0, cell(&value(rest))),
            (15, used_handle()),
        ])
    };
    assert!(goes(&image(225), 0));
    assert!(!goes(&image(226), 0));
}

/// "Shares imply the common limits": where the separate step goes, the common one does, with the same
/// bytes; and only 15 comes for a rule.
#[test]
fn only_15_comes_instead_of_a_rule() {
    on_deep_stack(|| {
        let mut draw = Draw::new(2);
        let (mut both, mut refused, mut brought_back) = (0, 0, 0);
        for number in 0..6_000 {
            let (image, thread) = match number % 2 {
                0 => shares::image(&mut draw),
                _ => {
                    let image = images::image(&mut draw);
                    let thread = thread_number(&mut draw, &image);
                    (image, thread)
                }
            };
            let (mut out, mut common_out) = (vec![3; MAX_IMAGE], vec![3; MAX_IMAGE]);
            let separate = step_in(Profile::Separate, &image, thread, &mut out);
            let common = step(&image, thread, &mut common_out);
            if separate == common {
                assert!(out == common_out);
                both += usize::from(matches!(common, Outcome::Rule(..)));
                let now = read_image(&image);
                let above = now.map_or(false, |now| {
                    let b = bays(&now);
                    (0..b).any(|bay| !owned(&now, bay).is_within(share(b)))
                });
                brought_back += usize::from(above && matches!(common, Outcome::Rule(..)));
            } else {
                assert_eq!(separate, NO_ROOM, "{}", hexadecimal(&image));
                assert!(matches!(common, Outcome::Rule(..)));
                assert!(out.iter().all(|byte| *byte == 3));
                refused += 1;
            }
        }
        println!("{both} go, {refused} lack room, {brought_back} bring a bay back");
        assert!(both > 1_000 && refused > 400 && brought_back > 50);
    });
}

/// An image of one bay is stepped alike in both profiles.
#[test]
fn one_bay_is_stepped_as_before() {
    on_deep_stack(|| {
        let mut draw = Draw::new(3);
        let mut no_room = 0;
        for number in 0..1_500 {
            let made = match number % 3 {
                0 => model::generate::configurations::configuration_at_limits(&mut draw),
                1 => model::generate::configurations::outcome_at_limit(&mut draw),
                _ => model::generate::configurations::configuration(&mut draw),
            };
            let image = write_image(&Configuration::of_bay(0, made.components));
            let thread = thread_number(&mut draw, &image);
            let (mut out, mut common_out) = (vec![3; MAX_IMAGE], vec![3; MAX_IMAGE]);
            let separate = step_in(Profile::Separate, &image, thread, &mut out);
            assert_eq!(separate, step(&image, thread, &mut common_out));
            assert!(out == common_out);
            no_room += usize::from(separate == NO_ROOM);
        }
        assert!(no_room > 40, "{no_room}");
    });
}

/// The images about the shares: every rule at, above and below a bay's share, nodes and names, for the
/// stepping bay, another that the rule gives something, and one that it leaves alone.
#[test]
fn images_are_drawn_about_every_share() {
    on_deep_stack(|| {
        let mut draw = Draw::new(4);
        let mut rules = [[0; 2]; 10];
        let mut of_bays = [[0; 2]; MAX_BAYS + 1];
        let mut about: BTreeMap<(&str, &str, isize), usize> = BTreeMap::new();
        let mut kept = 0;
        for _ in 0..12_000 {
            let (now, thread) = shares::configuration(&mut draw);
            kept += usize::from(read_image(&write_image(&now)).as_ref() == Some(&now));
            let (rule, next) = match outcome(&now, thread) {
                Some(found) => found,
                None => continue,
            };
            let b = bays(&now);
            let above: Vec<usize> = (0..b)
                .filter(|bay| !owned(&next, *bay).is_within(share(b)))
                .collect();
            let refused = usize::from(!above.is_empty());
            rules[usize::from(rule)][refused] += 1;
            of_bays[b][refused] += 1;
            for bay in 0..b {
                let whose = match () {
                    () if bay == usize::from(now.owners[thread]) => "own",
                    () if owned(&now, bay) != owned(&next, bay) => "another",
                    () => "untouched",
                };
                let (has, may) = (owned(&next, bay), share(b));
                let over = has.nodes as isize - may.nodes as isize;
                if (-1..=2).contains(&over) {
                    *about.entry((whose, "nodes", over)).or_default() += 1;
                }
                let over = has.names as isize - may.names as isize;
                if (-1..=2).contains(&over) {
                    *about.entry((whose, "names", over)).or_default() += 1;
                }
            }
        }
        println!("{rules:?} {of_bays:?} {about:?}");
        assert_eq!(kept, 12_000, "all are sound");
        let many = |count: &[usize; 2]| count.iter().all(|count| *count > 15);
        assert!(rules[1..].iter().all(many), "{rules:?}");
        assert!(of_bays[1..].iter().all(many), "{of_bays:?}");
        for whose in ["own", "another", "untouched"] {
            for what in ["nodes", "names"] {
                for over in -1..=2 {
                    let count = about.get(&(whose, what, over)).copied().unwrap_or(0);
                    assert!(count > 15, "{whose} {what} {over}: {about:?}");
                }
            }
        }
    });
}

/// What a rule makes of that thread, if one applies.
fn outcome(now: &Configuration, thread: usize) -> Option<(u8, Configuration)> {
    match now.components.get(thread)? {
        Component::Thread(_) => {}
        _ => return None,
    }
    match move_of(now, thread) {
        Move::Rule(rule, next) => Some((rule, next)),
        _ => None,
    }
}

/// The recipes: names of others at any depth, and starts about the share for every number of bays.
#[test]
fn recipes_are_drawn_about_both_refusals() {
    let mut draw = Draw::new(5);
    let mut starts = [[0; 2]; MAX_BAYS + 1];
    let mut numbers: BTreeMap<u32, usize> = BTreeMap::new();
    let mut out = vec![0; MAX_IMAGE];
    for _ in 0..6_000 {
        let file = separate::file(&mut draw);
        let number = match load_in(Profile::Separate, &file, &mut out) {
            Loaded::Accepted(..) => 0,
            Loaded::Refused(number) => number,
        };
        *numbers.entry(number).or_default() += 1;
        if [0, causes::SHARE].contains(&number) {
            let terms = model::verdict::read_recipe(&file).expect("accepted").terms;
            let most = share(terms.len()).nodes;
            let at = |nodes| terms.iter().any(|term| 1 + term.len() == nodes);
            starts[terms.len()][0] += usize::from(number == 0 && at(most));
            starts[terms.len()][1] += usize::from(number != 0 && at(most + 1));
        }
    }
    println!("{numbers:?} {starts:?}");
    for b in separate::FEWEST_ABOVE..=MAX_BAYS {
        assert!(starts[b].iter().all(|count| *count > 5), "{b}: {starts:?}");
    }
    assert!(numbers[&0] > 1_500 && numbers[&causes::OTHER_SETTING] > 1_000);
    assert!(numbers[&causes::SHARE] > 400, "{numbers:?}");
}

/// The comparison tries every answer of this profile, and the plain twin gives the model's.
#[test]
fn the_plain_twin_gives_the_models_answers() {
    let difference = on_deep_stack(|| {
        let mut comparison = Comparison::new(&Plain);
        let result = comparison.compare(12, 1_500);
        println!("{}", comparison.counts);
        let counts = &comparison.counts.separate;
        let refused = [12, 13, 14, 15, 16, 17].map(|number: usize| counts.step_refusals[number]);
        assert!(counts.loads[..13].iter().all(|count| *count > 0));
        assert!(counts.loads[19..].iter().all(|count| *count > 5));
        assert!(counts.rules[1..].iter().all(|count| *count > 5));
        assert!(refused.iter().all(|count| *count > 0));
        assert!(counts.done > 100 && counts.waiting > 20 && counts.over_share > 50);
        result.err().map(|difference| difference.0)
    });
    assert_eq!(difference, None);
}

/// In a run of this profile no bay ever has a name of another's, and b stays the number of bays.
#[test]
fn no_bay_comes_to_another_bays_names() {
    on_deep_stack(|| {
        let mut draw = Draw::new(6);
        let mut out = vec![0; MAX_IMAGE];
        let (mut moved, mut no_room) = (0, 0);
        for _ in 0..500 {
            let file = separate::recipe(&mut draw).write();
            let (b, mut image) = match load_in(Profile::Separate, &file, &mut out) {
                Loaded::Accepted(types, length) => (types.len(), out[..length].to_vec()),
                Loaded::Refused(_) => continue,
            };
            for _ in 0..80 {
                let now = read_image(&image).expect("an image of a run");
                assert_eq!(bays(&now), b);
                names_its_own(&now);
                let thread = thread_number(&mut draw, &image);
                match step_in(Profile::Separate, &image, thread, &mut out) {
                    Outcome::Rule(_, length) => {
                        image = out[..length].to_vec();
                        moved += 1;
                    }
                    Outcome::Refused(causes::ROOM) => no_room += 1,
                    Outcome::Refused(number) => assert_eq!(number, causes::NO_THREAD),
                    _ => {}
                }
            }
        }
        println!("{moved} steps, {no_room} without room");
        assert!(moved > 4_000 && no_room > 100);
    });
}

/// Whether every name in a component is of the component's bay.
fn names_its_own(now: &Configuration) {
    for (component, owner) in now.components.iter().zip(&now.owners) {
        let nodes = component.expression().map_or(Vec::new(), |e| e.nodes());
        for node in nodes {
            if let Node::Name(y) = node {
                assert_eq!(now.owners[usize::from(y)], *owner);
            }
        }
    }
}

/// A house of this profile in which a bay fills its share, and the others go on.
#[test]
fn a_bay_that_fills_its_share_leaves_the_others_room() {
    use model::houses::{house, Bay, Makes};
    let mut all = [Bay::Steps(9); MAX_BAYS];
    all[3] = Bay::Loops(Makes::Cells);
    let file = house(THIRD, &all).write();
    let mut out = vec![0; MAX_IMAGE];
    let length = match load_in(Profile::Separate, &file, &mut out) {
        Loaded::Accepted(_, length) => length,
        Loaded::Refused(number) => panic!("refused {number}"),
    };
    let mut image = out[..length].to_vec();
    // its first thread, and the one that it makes and waits for
    let mut thread = 16 + 3;
    loop {
        match step_in(Profile::Separate, &image, thread, &mut out) {
            Outcome::Rule(_, length) => image = out[..length].to_vec(),
            Outcome::Waiting(name) => thread = u64::from(name),
            Outcome::Done => thread = 16 + 3,
            refused => break assert_eq!(refused, NO_ROOM),
        }
    }
    let now = read_image(&image).expect("an image of a run");
    assert_eq!(owned(&now, 3).names, 16);
    for other in (16..32).filter(|thread| *thread != 16 + 3) {
        let outcome = step_in(Profile::Separate, &image, other, &mut out);
        assert!(matches!(outcome, Outcome::Rule(rules::BETA, _)));
    }
}
