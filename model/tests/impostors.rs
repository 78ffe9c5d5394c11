//! The comparison finds the impostors that document 01 names to the testers, and those that know
//! a change of document 02 only by half.

mod impostor;

use impostor::*;
use model::answers::{SteppedAnswer, VerdictAnswer, DONE, REFUSED, RULE, WAITING};
use model::causes;
use model::format::{edition_of, parts, write_parts};
use model::image::read_image;
use model::nodes::{read_term, write_term, Node, FORMS};
use model::table::ONCE;
use model::tags;
use model::types::Constant;
use std::sync::Mutex;

#[test]
fn the_honest_one_passes() {
    assert!(!is_found(&HONEST));
}

#[test]
fn a_checker_that_turns_every_recipe_away_or_passes_every_one() {
    let away: Check = |_| VerdictAnswer {
        refusal: 1,
        ..VerdictAnswer::default()
    };
    let every: Check = |_| VerdictAnswer {
        bays: 1,
        ..VerdictAnswer::default()
    };
    for check in [away, every] {
        assert!(is_found(&with_check(check)));
    }
}

#[test]
fn a_loader_that_gives_each_bay_a_thread_holding_its_own_name() {
    let own: Load = |recipe, out| {
        let mut answer = load(recipe, out);
        if answer.refusal == 0 && answer.bays == 1 {
            let image = [2, 0, 2, 0, 14, 0, 3, 0, 1, 0, 17, 0, 2, 0, 4, 0, 0, 9, 1];
            out[..image.len()].copy_from_slice(&image);
            answer.length = image.len() as u64;
        }
        answer
    };
    assert!(is_found(&with_load(own)));
}

#[test]
fn a_loader_that_writes_beyond_the_image_or_tells_another_length() {
    let beyond: Load = |recipe, out| {
        let answer = load(recipe, out);
        if answer.refusal == 0 {
            out[answer.length as usize] ^= 1;
        }
        answer
    };
    let longer: Load = |recipe, out| {
        let mut answer = load(recipe, out);
        answer.length += u64::from(answer.refusal == 0);
        answer
    };
    for load in [beyond, longer] {
        assert!(is_found(&with_load(load)));
    }
}

#[test]
fn a_stepper_that_copies_the_image_and_names_rule_1() {
    let copies: Step = |image, thread, out| {
        let mut answer = step(image, thread, out);
        if answer.outcome == RULE {
            out[..image.len()].copy_from_slice(image);
            answer.number = 1;
            answer.length = image.len() as u64;
        }
        answer
    };
    assert!(is_found(&with_step(copies)));
}

/// The first step that the next test's stepper made.
static FIRST: Mutex<Option<(SteppedAnswer, Vec<u8>)>> = Mutex::new(None);

#[test]
fn a_stepper_that_steps_once_and_afterwards_repeats_that_image() {
    let repeats: Step = |image, thread, out| {
        let answer = step(image, thread, out);
        if answer.outcome != RULE {
            return answer;
        }
        let mut first = FIRST.lock().expect("nobody else steps");
        let (old, bytes) =
            first.get_or_insert_with(|| (answer, out[..answer.length as usize].to_vec()));
        out[..bytes.len()].copy_from_slice(bytes);
        *old
    };
    assert!(is_found(&with_step(repeats)));
}

/// A stepper that gives this answer where a rule would go, and writes nothing.
fn instead(image: &[u8], thread: u64, out: &mut [u8], outcome: u32, number: u32) -> SteppedAnswer {
    let before = out.to_vec();
    let answer = step(image, thread, out);
    if answer.outcome != RULE {
        return answer;
    }
    out.copy_from_slice(&before);
    SteppedAnswer {
        outcome,
        number,
        length: 0,
    }
}

#[test]
fn a_stepper_that_says_waiting_done_or_no_room_of_a_thread_that_could_go() {
    let waiting: Step = |image, thread, out| instead(image, thread, out, WAITING, thread as u32);
    let done: Step = |image, thread, out| instead(image, thread, out, DONE, 0);
    let no_room: Step = |image, thread, out| instead(image, thread, out, REFUSED, 15);
    for step in [waiting, done, no_room] {
        assert!(is_found(&with_step(step)));
    }
}

#[test]
fn a_stepper_that_tells_another_length() {
    let longer: Step = |image, thread, out| {
        let mut answer = step(image, thread, out);
        answer.length += u64::from(answer.outcome == RULE);
        answer
    };
    assert!(is_found(&with_step(longer)));
}

/// The recipe with `change` made of each num in it; `None` where a part is no term.
fn with_nums(recipe: &[u8], change: fn(u16) -> u16) -> Option<Vec<u8>> {
    let found = parts(edition_of(recipe)?, recipe)?;
    let mut parts = vec![found.table.to_vec()];
    parts.extend(found.starting.map(<[u8]>::to_vec));
    for term in found.terms {
        let nodes = read_term(&FORMS, term)?.into_iter().map(|node| match node {
            Node::Num(value) => Node::Num(change(value)),
            other => other,
        });
        parts.push(write_term(&nodes.collect::<Vec<Node>>()));
    }
    Some(write_parts(recipe[2], &parts))
}

/// T-01, "A num may be 0 to 65,535".
#[test]
fn a_checker_that_still_refuses_a_num_above_1000() {
    let bounded: Check = |recipe| {
        let answer = check(recipe);
        let lowered = with_nums(recipe, |value| value.min(1_000));
        if answer.refusal == 0 && lowered.as_deref() != Some(recipe) {
            return VerdictAnswer {
                refusal: causes::NO_TERM,
                ..VerdictAnswer::default()
            };
        }
        answer
    };
    assert!(is_found(&with_check(bounded)));
}

#[test]
fn a_loader_that_reads_a_num_modulo_1024() {
    let modulo: Load = |recipe, out| match with_nums(recipe, |value| value % 1_024) {
        Some(reduced) => load(&reduced, out),
        None => load(recipe, out),
    };
    assert!(is_found(&with_load(modulo)));
}

#[test]
fn a_stepper_that_refuses_an_image_with_num_65535() {
    let bounded: Step = |image, thread, out| {
        let highest = [tags::NUM, 0xFF, 0xFF];
        if image.windows(highest.len()).any(|bytes| bytes == highest) {
            return BROKEN;
        }
        step(image, thread, out)
    };
    assert!(is_found(&with_step(bounded)));
}

/// Whether the recipe has this constant at contents of multiplicity once: of cell, what it is
/// applied to; of exch, what its cell holds.
fn has_once_contents(recipe: &[u8], wanted: Constant) -> bool {
    let found = edition_of(recipe).and_then(|edition| parts(edition, recipe));
    let found = found.unwrap_or_default();
    let entries: Vec<&[u8]> = found.table.chunks(3).collect();
    let entry = |number: u8| entries.get(usize::from(number)).copied().unwrap_or(&[0; 3]);
    let contents = |whole: u8| match wanted {
        Constant::Cell => entry(whole)[1],
        _ => entry(entry(whole)[1])[1],
    };
    let narrowed = |node: &Node| match node {
        Node::Constant(c, whole) => *c == wanted && entry(contents(*whole))[0] == ONCE,
        _ => false,
    };
    let nodes = found.terms.into_iter();
    let nodes = nodes.filter_map(|term| read_term(&FORMS, term));
    nodes.flatten().any(|node| narrowed(&node))
}

fn refused_for_contents(recipe: &[u8], wanted: Constant) -> VerdictAnswer {
    let answer = check(recipe);
    if answer.refusal == 0 && has_once_contents(recipe, wanted) {
        return VerdictAnswer {
            refusal: causes::ANNOTATION,
            ..VerdictAnswer::default()
        };
    }
    answer
}

/// T-02, "contents may have either multiplicity".
#[test]
fn a_checker_that_still_narrows_cell_alone_or_exch_alone() {
    let cell: Check = |recipe| refused_for_contents(recipe, Constant::Cell);
    let exch: Check = |recipe| refused_for_contents(recipe, Constant::Exch);
    for check in [cell, exch] {
        assert!(is_found(&with_check(check)));
    }
}

/// Whether a cell of the image holds an open handle.
fn keeps_a_handle(image: &[u8]) -> bool {
    read_image(image).map_or(false, |now| !now.kept_handles().is_empty())
}

#[test]
fn a_stepper_that_refuses_an_image_whose_cell_holds_a_handle() {
    let narrow: Step = |image, thread, out| {
        if keeps_a_handle(image) {
            return BROKEN;
        }
        step(image, thread, out)
    };
    assert!(is_found(&with_step(narrow)));
}
