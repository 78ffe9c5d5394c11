//! Document 02, T-08, "Every name knows its bay": what the companion byte holds, and who owns a name.

mod common;

use common::*;
use model::causes;
use model::command::on_deep_stack;
use model::config::{Component, Configuration};
use model::draw::Draw;
use model::format::{bytes_of_hexadecimal, hexadecimal};
use model::generate::images::{self, thread_number};
use model::generate::{bays, recipes};
use model::image::{owners, read_image, write_image};
use model::kinds;
use model::limits::{FIRST_HEAD, HEAD_LENGTH, MAX_BAYS, MAX_IMAGE};
use model::load::starting_image;
use model::nodes::Node;
use model::rules;
use model::run::Run;
use model::step::{step, Outcome};
use model::types::Constant;

/// The image of these components, each with its owner; that of an open handle is not written.
fn of_bays(owned: &[(u8, Component)]) -> Vec<u8> {
    let (owners, components) = owned.iter().cloned().unzip();
    write_image(&Configuration { components, owners })
}

fn name(y: u8) -> Vec<Node> {
    vec![Node::Name(y)]
}

fn num(value: u16) -> Vec<Node> {
    vec![Node::Num(value)]
}

/// exch y v
fn exchange(y: u8, v: Vec<Node>) -> Vec<Node> {
    application(application(constant(Constant::Exch), name(y)), v)
}

/// The kind and the companion of a name.
fn head(image: &[u8], name: usize) -> [u8; 2] {
    let at = FIRST_HEAD + HEAD_LENGTH * name;
    [image[at], image[at + 1]]
}

/// Whether these are the bytes of the image.
fn is(image: &[u8], heads: &[&str], expressions: &[&str]) {
    let names = format!("{:02X}00", heads.len());
    let text = names + &heads.concat() + &expressions.concat();
    assert_eq!(
        hexadecimal(image),
        hexadecimal(&bytes_of_hexadecimal(&text))
    );
}

/// A function from num to a cell of num.
const CELLS: &str = "000000 010000 020100 040102";
/// cell 5
const MAKES_A_CELL: &str = "02 05 03 04 05 00";
/// A function from unit to unit, and from that to unit.
const THREADS: &str = "000000 010000 020100 040000 040300";
/// thread (λx:unit. unit)
const MAKES_A_THREAD: &str = "02 07 04 01 03 03";
/// Case C: handle (λx. λh. h x)
const MAKES_A_HANDLE: &str = "02 08 06 01 05 01 04 02 00 00 00 01";

/// "case A's image is unchanged, its bay being 0"
#[test]
fn case_a_is_unchanged() {
    let image = starting_image(&recipe(A, "03")).expect("accepted");
    assert_eq!(hexadecimal(&image), "020002000E00030001001100010004000003");
    assert_eq!(owners(&image), [0, 0]);
}

/// "Settings and first threads belong to their bay"
#[test]
fn settings_and_first_threads_belong_to_their_bay() {
    let image = starting_image(&recipe_of(A, &["03", "04 07 00", "09 01"])).expect("accepted");
    is(
        &image,
        &[
            "02 00 2600 0300",
            "02 01 2900 0300",
            "02 02 2C00 0300",
            "01 00 2F00 0100",
            "01 01 3000 0300",
            "01 02 3300 0200",
        ],
        &["040000", "040000", "040000", "03", "040700", "0901"],
    );
    for bays in 1..=MAX_BAYS {
        let files = [
            recipe_of(A, &vec!["03"; bays]),
            recipe_3(A, &"0102".repeat(bays), &vec!["03"; bays]),
        ];
        let each: Vec<u8> = (0..bays as u8).collect();
        for file in files {
            let image = starting_image(&file).expect("accepted");
            assert_eq!(owners(&image), [&each[..], &each[..]].concat());
        }
    }
}

/// "a new name to the creating thread's bay": a cell in each of two bays.
#[test]
fn new_cells_belong_to_the_creating_threads_bay() {
    let file = recipe_of(CELLS, &[MAKES_A_CELL; 2]);
    let (answers, image) = run(&file, &[3]);
    assert_eq!(answers, [rules::CELL_NEW]);
    is(
        &image,
        &[
            "02 00 2000 0300",
            "02 01 2300 0300",
            "01 00 2600 0600",
            "01 01 2C00 0200",
            "02 01 2E00 0300",
        ],
        &["040000", "040000", "020503040500", "0904", "040500"],
    );
    let (_, image) = image_after(&image, 2);
    is(
        &image,
        &[
            "02 00 2600 0300",
            "02 01 2900 0300",
            "01 00 2C00 0200",
            "01 01 2E00 0200",
            "02 01 3000 0300",
            "02 00 3300 0300",
        ],
        &["040000", "040000", "0905", "0904", "040500", "040500"],
    );
}

/// The same of threads.
#[test]
fn new_threads_belong_to_the_creating_threads_bay() {
    let file = recipe_of(THREADS, &[MAKES_A_THREAD; 2]);
    let (answers, image) = run(&file, &[3, 2]);
    assert_eq!(answers, [rules::THREAD_NEW; 2]);
    is(
        &image,
        &[
            "02 00 2600 0300",
            "02 01 2900 0300",
            "01 00 2C00 0200",
            "01 01 2E00 0200",
            "01 01 3000 0600",
            "01 00 3600 0600",
        ],
        &[
            "040000",
            "040000",
            "0905",
            "0904",
            "020103030904",
            "020103030905",
        ],
    );
}

/// The same of futures and their handles, and "a future or handle keeps its owner when used".
#[test]
fn new_futures_and_handles_belong_to_the_creating_threads_bay() {
    let file = recipe_of(T7, &[MAKES_A_HANDLE; 2]);
    let (answers, image) = run(&file, &[3]);
    assert_eq!(answers, [rules::HANDLE_NEW]);
    is(
        &image,
        &[
            "02 00 2600 0300",
            "02 01 2900 0300",
            "01 00 2C00 0C00",
            "01 01 3800 0F00",
            "05 01 4700 0000",
            "03 04 4700 0000",
        ],
        &[
            "040000",
            "040000",
            "020806010501040200000001",
            "0202010501040200000001 09040905",
        ],
    );
    assert_eq!(owners(&image), [0, 1, 0, 1, 1, 1]);
    let (answers, image) = run(&file, &[3, 3, 3, 3]);
    assert_eq!(answers, [4, 1, 1, 5]);
    is(
        &image,
        &[
            "02 00 2600 0300",
            "02 01 2900 0300",
            "01 00 2C00 0C00",
            "01 01 3800 0100",
            "01 01 3900 0200",
            "04 01 3B00 0000",
        ],
        &["040000", "040000", "020806010501040200000001", "03", "0904"],
    );
    let (answers, image) = run(&file, &[3, 3, 3, 3, 2, 2, 2, 2]);
    assert_eq!(answers, [4, 1, 1, 5, 4, 1, 1, 5]);
    is(
        &image,
        &[
            "02 00 3200 0300",
            "02 01 3500 0300",
            "01 00 3800 0100",
            "01 01 3900 0100",
            "01 01 3A00 0200",
            "04 01 3C00 0000",
            "01 00 3C00 0200",
            "04 00 3E00 0000",
        ],
        &["040000", "040000", "03", "03", "0904", "0906"],
    );
}

/// A thread that a thread made makes names of the same bay.
#[test]
fn a_new_threads_new_names_are_of_its_bay() {
    // thread (λx. cell 5)
    let table = format!("{CELLS} 040202 040402");
    let file = recipe_of(&table, &["03", "02 07 05 01 04 02 05 03 04 05 00"]);
    let (answers, image) = run(&file, &[3, 4, 4]);
    assert_eq!(answers, [rules::THREAD_NEW, rules::BETA, rules::CELL_NEW]);
    assert_eq!(owners(&image), [0, 1, 0, 1, 1, 1]);
    assert_eq!(head(&image, 5), [kinds::CELL, 1]);
}

/// The creating thread's bay, also where the value applied came from another bay: bay 0 leaves a thread's
/// name in its setting, and bay 1 makes a cell of it. The setting stays bay 0's.
#[test]
fn a_new_name_is_not_of_the_bay_that_its_value_came_from() {
    // 3 num →ω num, 4 num ref →ω 3, 5 num →ω num ref, 6 3 →ω num
    let table = "000000 010000 020100 040101 040203 040102 040301";
    // exch setting0 (thread (λx:num. 5)), and cell (exch setting0 7)
    let leaves = "02 02 06 04 09 00 02 07 06 01 03 04 05 00";
    let takes = "02 05 05 02 02 06 04 09 00 04 07 00";
    let (answers, image) = run(&recipe_of(table, &[leaves, takes]), &[2, 2, 3, 3]);
    assert_eq!(answers, [2, 7, 7, 6]);
    is(
        &image,
        &[
            "02 00 2600 0300",
            "02 01 2900 0300",
            "01 00 2C00 0300",
            "01 01 2F00 0200",
            "01 00 3100 0800",
            "02 01 3900 0200",
        ],
        &[
            "040700",
            "040000",
            "040000",
            "0905",
            "02 01 03 04 05 00 09 04",
            "0904",
        ],
    );
}

/// The same in images from outside, for each constant that makes a name.
#[test]
fn a_name_of_another_bay_is_given_to_a_constant() {
    let made = [
        (Constant::Thread, vec![[kinds::THREAD, 9]]),
        (Constant::Cell, vec![[kinds::CELL, 9]]),
        (
            Constant::Handle,
            vec![[kinds::FUTURE, 9], [kinds::OPEN_HANDLE, 2]],
        ),
    ];
    for (what, heads) in made {
        let image = of_bays(&[
            (3, thread(&unit())),
            (9, thread(&application(constant(what), name(0)))),
        ]);
        let (_, next) = image_after(&image, 1);
        assert_eq!(head(&next, 0), [kinds::THREAD, 3]);
        assert_eq!(head(&next, 1), [kinds::THREAD, 9]);
        let new: Vec<[u8; 2]> = (2..owners(&next).len()).map(|y| head(&next, y)).collect();
        assert_eq!(new, heads);
        assert_eq!(owners(&next)[2..], vec![9; heads.len()]);
    }
}

/// Rule 5 by another bay's thread: "a future or handle keeps its owner when used", the future's.
#[test]
fn another_bays_thread_binds() {
    let image = of_bays(&[
        (7, thread(&application(name(2), num(4)))),
        (5, Component::Future),
        (5, Component::OpenHandle(1)),
    ]);
    is(
        &image,
        &["01 07 1400 0600", "05 05 1A00 0000", "03 01 1A00 0000"],
        &["02 0902 040400"],
    );
    assert_eq!(owners(&image), [7, 5, 5]);
    let (rule, next) = image_after(&image, 0);
    assert_eq!(rule, rules::HANDLE_BIND);
    is(
        &next,
        &["01 07 1400 0100", "01 05 1500 0300", "04 05 1800 0000"],
        &["03", "040400"],
    );
    assert_eq!(owners(&next), [7, 5, 5]);
}

/// Cells keep their owner when exchanged.
#[test]
fn another_bays_thread_exchanges() {
    let image = of_bays(&[(2, cell(&num(1))), (11, thread(&exchange(0, num(9))))]);
    let (rule, next) = image_after(&image, 1);
    assert_eq!(rule, rules::CELL_EXCH);
    is(
        &next,
        &["02 02 0E00 0300", "01 0B 1100 0300"],
        &["040900", "040100"],
    );
}

/// What another bay's thread found is copied (rule 3); its thread stays its own.
#[test]
fn another_bays_value_is_needed() {
    let identity = vec![Node::Lambda(0), Node::Variable(0)];
    let image = of_bays(&[
        (4, thread(&identity)),
        (6, thread(&application(name(0), num(3)))),
    ]);
    let (rule, next) = image_after(&image, 1);
    assert_eq!(rule, rules::FUTURE_DEREF);
    assert_eq!(owners(&next), [4, 6]);
}

/// An image with a name of each kind whose companion is an owner: thread 0, cell 1, used handle 2, and
/// future 3 with its handle 4.
fn one_of_each(owned: [u8; 4]) -> Vec<u8> {
    let [of_thread, of_cell, of_used, of_future] = owned;
    of_bays(&[
        (of_thread, thread(&unit())),
        (of_cell, cell(&unit())),
        (of_used, used_handle()),
        (of_future, Component::Future),
        (of_future, Component::OpenHandle(3)),
    ])
}

const BROKEN: Outcome = Outcome::Refused(causes::IMAGE);

/// "An image with an owner not below 16 breaks the layout.": every byte at each kind.
#[test]
fn an_owner_is_below_16() {
    for at in 0..4 {
        for owner in 0..=u8::MAX {
            let mut owned = [0, 1, 2, 3];
            owned[at] = owner;
            let image = one_of_each(owned);
            let due = match owner {
                0..=15 => Outcome::Done,
                _ => BROKEN,
            };
            assert_eq!(step_first(&image), due, "owner {owner} at {at}");
            assert_eq!(read_image(&image).is_some(), owner < 16);
        }
    }
}

/// An image has no b: gaps are allowed, and owners above every first thread's.
#[test]
fn owners_may_have_gaps() {
    let image = one_of_each([12, 3, 15, 8]);
    assert_eq!(step_first(&image), Outcome::Done);
    assert_eq!(owners(&image), [12, 3, 15, 8, 8]);
    assert_eq!(step_first(&one_of_each([15; 4])), Outcome::Done);
}

/// 12 stands before 13, and 13 before 14, 16 and 17.
#[test]
fn a_wrong_owner_is_refused_in_its_turn() {
    let image = one_of_each([16, 0, 0, 0]);
    let mut short = vec![0; MAX_IMAGE - 1];
    assert_eq!(
        step(&image, 0, &mut short),
        Outcome::Refused(causes::BUFFER)
    );
    for no_thread in [1, 5, u64::MAX] {
        assert_eq!(step_thread(&image, no_thread), BROKEN);
    }
    for function in [name(1), unit()] {
        let applied = thread(&application(function, unit()));
        let refused = |owner| step_first(&of_bays(&[(owner, applied.clone()), (0, used_handle())]));
        assert_ne!(refused(15), BROKEN);
        assert_eq!(refused(16), BROKEN);
    }
}

/// The handle of a future of that number: the next name, or name 1.
fn handle_of(future: u8) -> u8 {
    future.checked_add(1).unwrap_or(1)
}

/// So many threads of bay 0, that future and its handle among them, both of bay 15; thread 0 is of bay 3
/// and applies the handle.
fn far_future(names: usize, future: u8) -> Vec<u8> {
    let handle = handle_of(future);
    let mut owned = vec![(0, thread(&unit())); names];
    owned[0] = (3, thread(&application(name(handle), unit())));
    owned[usize::from(future)] = (15, Component::Future);
    owned[usize::from(handle)] = (15, Component::OpenHandle(future));
    of_bays(&owned)
}

/// Kind 3's companion is its future's number, also where that is 16 or more; the used handle gets its
/// owner's.
#[test]
fn the_number_of_a_future_is_no_owner() {
    for (names, future) in [(17, 15), (18, 16), (19, 17), (202, 200), (256, 255)] {
        let image = far_future(names, future);
        let handle = usize::from(handle_of(future));
        assert_eq!(head(&image, handle), [kinds::OPEN_HANDLE, future]);
        assert_eq!(owners(&image)[handle], 15);
        let (rule, next) = image_after(&image, 0);
        assert_eq!(rule, rules::HANDLE_BIND);
        assert_eq!(head(&next, 0), [kinds::THREAD, 3]);
        assert_eq!(head(&next, usize::from(future)), [kinds::THREAD, 15]);
        assert_eq!(head(&next, handle), [kinds::USED_HANDLE, 15]);
        assert_eq!(owners(&next), owners(&image));
    }
}

/// Kind 3's companion still is a future: an owner there is refused.
#[test]
fn an_owner_is_no_companion_of_an_open_handle() {
    let mut image = one_of_each([0, 1, 2, 4]);
    let companion = FIRST_HEAD + HEAD_LENGTH * 4 + 1;
    assert_eq!(image[companion], 3);
    image[companion] = 4;
    assert_eq!(step_first(&image), BROKEN);
}

/// The owners that an image's heads tell, as far as they are whole.
#[test]
fn owners_of_slices() {
    let image = one_of_each([1, 2, 3, 4]);
    assert_eq!(owners(&image), [1, 2, 3, 4, 4]);
    assert_eq!(
        owners(&image[..FIRST_HEAD + 5 * HEAD_LENGTH]),
        [1, 2, 3, 4, 4]
    );
    assert!(owners(&image[..FIRST_HEAD + 5 * HEAD_LENGTH - 1]).is_empty());
    assert!(owners(&[0, 0]).is_empty());
    assert!(owners(&[]).is_empty());
}

/// What holds of every step: owners stay, and a new name has the stepping thread's.
fn keeps_owners(image: &[u8], thread: u64, next: &[u8]) {
    let (before, after) = (owners(image), owners(next));
    let (kept, new) = after.split_at(before.len());
    assert_eq!(kept, before, "{}", hexadecimal(image));
    let own = before[thread as usize];
    assert!(
        new.iter().all(|owner| *owner == own),
        "{}",
        hexadecimal(image)
    );
}

#[test]
fn no_step_changes_an_owner() {
    on_deep_stack(|| {
        let mut draw = Draw::new(1);
        let mut out = vec![0; MAX_IMAGE];
        let mut count = 0;
        for _ in 0..6_000 {
            let image = images::image(&mut draw);
            let thread = thread_number(&mut draw, &image);
            if let Outcome::Rule(_, length) = step(&image, thread, &mut out) {
                keeps_owners(&image, thread, &out[..length]);
                count += 1;
            }
        }
        assert!(count > 500, "{count} steps by a rule");
    });
}

/// In runs: the claim holds, owners stay, and each is a bay of the recipe; every bay comes to own new
/// names.
#[test]
fn no_run_changes_an_owner() {
    on_deep_stack(|| {
        let mut draw = Draw::new(2);
        let mut out = vec![0; MAX_IMAGE];
        let mut news = [0; MAX_BAYS];
        for number in 0..600 {
            let made = match number % 2 {
                0 => bays::recipe(&mut draw),
                _ => recipes::well_typed(&mut draw),
            };
            let mut run = match Run::start(&made.write()) {
                Some(run) => run,
                None => continue,
            };
            for _ in 0..60 {
                let before = run.image.clone();
                let thread = thread_number(&mut draw, &before);
                if let Outcome::Rule(..) = run.step(thread, &mut out).expect("the claim") {
                    keeps_owners(&before, thread, &run.image);
                }
            }
            for (name, owner) in owners(&run.image).into_iter().enumerate() {
                assert!(usize::from(owner) < made.terms.len());
                news[usize::from(owner)] += usize::from(name >= 2 * made.terms.len());
            }
        }
        assert!(news.iter().all(|count| *count > 0), "{news:?}");
    });
}

/// What is written is read again: owners too.
#[test]
fn owners_are_read_as_they_are_written() {
    on_deep_stack(|| {
        let mut draw = Draw::new(3);
        for _ in 0..2_000 {
            let made = model::generate::configurations::configuration(&mut draw);
            let read = read_image(&write_image(&made)).expect("a sound image");
            assert_eq!(read.owners, made.owners);
            assert_eq!(read.components, made.components);
        }
    });
}
