//! The comparison finds those that know starting nums (document 02, T-07) only by half.

mod impostor;

use impostor::*;
use model::answers::{LoadedAnswer, RanAnswer, VerdictAnswer};
use model::causes;
use model::editions::{FIRST, SECOND, THIRD};
use model::format::{pairs, parts, write_parts, Parts};
use model::limits::{MAX_BAYS, MAX_FILE, MAX_IMAGE, STARTING_NUM_LENGTH};
use model::nodes::{read_term, write_term, Node, FORMS};

/// How many recipes an impostor is given at most.
const RECIPES: u64 = 4_000;

fn checker_is_found(check: Check) -> bool {
    is_found_among(&with_check(check), RECIPES)
}

fn loader_is_found(load: Load) -> bool {
    is_found_among(&with_load(load), RECIPES)
}

fn runner_is_found(run: Run) -> bool {
    is_found_among(&with_run(run), RECIPES)
}

fn refused(refusal: u32) -> VerdictAnswer {
    VerdictAnswer {
        refusal,
        ..VerdictAnswer::default()
    }
}

fn load_refused(refusal: u32) -> LoadedAnswer {
    LoadedAnswer {
        refusal,
        ..LoadedAnswer::default()
    }
}

/// The parts of a file of edition 3 whose layout is kept.
fn parts_of(recipe: &[u8]) -> Option<Parts<'_>> {
    let kept = !(causes::FILE_LENGTH..=causes::LAYOUT).contains(&check(recipe).refusal);
    let third = kept && recipe[2] == THIRD.number;
    third.then(|| parts(THIRD, recipe)).flatten()
}

/// The bytes that a starting part should have.
fn due(found: &Parts) -> usize {
    STARTING_NUM_LENGTH * found.terms.len()
}

fn is_wrong(found: &Parts) -> bool {
    found.starting_nums().is_none()
}

/// A file of edition 3 of these parts.
fn file_of(table: &[u8], starting: Vec<u8>, terms: Vec<Vec<u8>>) -> Vec<u8> {
    let mut all = vec![table.to_vec(), starting];
    all.extend(terms);
    write_parts(THIRD.number, &all)
}

/// The file with another starting part, if it is of edition 3; the change knows how long it should be.
fn with_starting(recipe: &[u8], change: fn(&mut Vec<u8>, usize)) -> Vec<u8> {
    let found = match parts_of(recipe) {
        Some(found) => found,
        None => return recipe.to_vec(),
    };
    let mut starting = found.starting.unwrap_or_default().to_vec();
    change(&mut starting, due(&found));
    let terms = found.terms.iter().map(|term| term.to_vec()).collect();
    file_of(found.table, starting, terms)
}

/// The file with other names in its terms, if it is of edition 3; the change knows the bays.
fn with_names(recipe: &[u8], change: fn(u8, u8) -> u8) -> Option<Vec<u8>> {
    let found = parts_of(recipe)?;
    let bays = found.terms.len() as u8;
    let named = |node: Node| match node {
        Node::Name(k) => Node::Name(change(k, bays)),
        other => other,
    };
    let term = |term: &&[u8]| {
        let nodes = read_term(&FORMS, term)?.into_iter().map(named);
        Some(write_term(&nodes.collect::<Vec<Node>>()))
    };
    let terms = found.terms.iter().map(term).collect::<Option<_>>()?;
    Some(file_of(found.table, found.starting?.to_vec(), terms))
}

/// The nums of a starting part, each changed.
fn each(starting: &mut [u8], change: fn(u16) -> u16) {
    for num in starting.chunks_exact_mut(STARTING_NUM_LENGTH) {
        let changed = change(u16::from_le_bytes([num[0], num[1]]));
        num.copy_from_slice(&changed.to_le_bytes());
    }
}

#[test]
fn the_honest_one_passes_and_those_that_change_nothing() {
    assert!(!is_found_among(&HONEST, 1_000));
    let same: Load = |recipe, out| load(&with_starting(recipe, |_, _| {}), out);
    let named: Check = |recipe| {
        let same = with_names(recipe, |k, _| k);
        check(same.as_deref().unwrap_or(recipe))
    };
    assert!(!is_found_among(&with_load(same), 1_000));
    assert!(!is_found_among(&with_check(named), 1_000));
}

#[test]
fn a_loader_that_reads_a_starting_num_otherwise() {
    let big_endian: Load = |recipe, out| {
        let swapped = with_starting(recipe, |part, _| each(part, u16::swap_bytes));
        load(&swapped, out)
    };
    let modulo_256: Load = |recipe, out| {
        let reduced = with_starting(recipe, |part, _| each(part, |num| num % 256));
        load(&reduced, out)
    };
    let high_byte: Load = |recipe, out| {
        let reduced = with_starting(recipe, |part, _| each(part, |num| num & 0xFF00));
        load(&reduced, out)
    };
    let clipped: Load = |recipe, out| {
        let lowered = with_starting(recipe, |part, _| each(part, |num| num.min(1_000)));
        load(&lowered, out)
    };
    let signed: Load = |recipe, out| {
        let lowered = with_starting(recipe, |part, _| each(part, |num| num & 0x7FFF));
        load(&lowered, out)
    };
    for load in [big_endian, modulo_256, high_byte, clipped, signed] {
        assert!(loader_is_found(load));
    }
}

/// "Editions 1 and 2 keep the unwritten 0", and not edition 3.
#[test]
fn a_loader_that_passes_over_the_starting_part() {
    let zeros: Load = |recipe, out| load(&with_starting(recipe, |part, _| part.fill(0)), out);
    assert!(loader_is_found(zeros));
}

#[test]
fn a_loader_that_takes_the_num_of_another_bay() {
    let next: Load = |recipe, out| {
        let turned = with_starting(recipe, |part, due| {
            if part.len() == due {
                part.rotate_left(STARTING_NUM_LENGTH);
            }
        });
        load(&turned, out)
    };
    let former: Load = |recipe, out| {
        let turned = with_starting(recipe, |part, due| {
            if part.len() == due {
                part.rotate_right(STARTING_NUM_LENGTH);
            }
        });
        load(&turned, out)
    };
    let reversed: Load = |recipe, out| {
        let turned = with_starting(recipe, |part, _| {
            part.reverse();
            each(part, u16::swap_bytes);
        });
        load(&turned, out)
    };
    let first: Load = |recipe, out| {
        let same = with_starting(recipe, |part, _| {
            let length = part.len();
            let first = part[..STARTING_NUM_LENGTH.min(length)].to_vec();
            *part = first.into_iter().cycle().take(length).collect();
        });
        load(&same, out)
    };
    for load in [next, former, reversed, first] {
        assert!(loader_is_found(load));
    }
}

/// The fourth bay's num is lost, or the last bay's.
#[test]
fn a_loader_that_loses_the_num_of_one_bay() {
    let fourth: Load = |recipe, out| {
        let lost = with_starting(recipe, |part, _| {
            part.chunks_mut(STARTING_NUM_LENGTH)
                .skip(3)
                .take(1)
                .for_each(|num| num.fill(0));
        });
        load(&lost, out)
    };
    let last: Load = |recipe, out| {
        let lost = with_starting(recipe, |part, _| {
            let from = part.len() - STARTING_NUM_LENGTH.min(part.len());
            part[from..].fill(0);
        });
        load(&lost, out)
    };
    for load in [fourth, last] {
        assert!(loader_is_found(load));
    }
}

/// A num may be 0 to 65,535.
#[test]
fn a_checker_that_refuses_a_starting_num_above_1000() {
    fn bounded<const CAUSE: u32>(recipe: &[u8]) -> VerdictAnswer {
        let answer = check(recipe);
        let nums = parts_of(recipe).and_then(|found| found.starting_nums());
        let above = nums.unwrap_or_default().iter().any(|num| *num > 1_000);
        match answer.refusal {
            0 if above => refused(CAUSE),
            _ => answer,
        }
    }
    assert!(checker_is_found(bounded::<{ causes::NO_TERM }>));
    assert!(checker_is_found(bounded::<{ causes::STARTING }>));
}

/// "a starting part whose length is not twice the number of bays"
#[test]
fn a_checker_that_lets_another_length_pass() {
    let longer: Check = |recipe| {
        let fitted = with_starting(recipe, |part, due| part.truncate(due));
        check(&fitted)
    };
    let shorter: Check = |recipe| {
        let fitted = with_starting(recipe, |part, due| part.resize(part.len().max(due), 0));
        check(&fitted)
    };
    let odd: Check = |recipe| {
        let fitted = with_starting(recipe, |part, due| {
            if part.len() == due + 1 {
                part.truncate(due);
            }
        });
        check(&fitted)
    };
    let any: Check = |recipe| check(&with_starting(recipe, |part, due| part.resize(due, 0)));
    for check in [longer, shorter, odd, any] {
        assert!(checker_is_found(check));
    }
}

#[test]
fn a_loader_that_lets_another_length_pass() {
    let longer: Load = |recipe, out| {
        let fitted = with_starting(recipe, |part, due| part.truncate(due));
        load(&fitted, out)
    };
    let shorter: Load = |recipe, out| {
        let fitted = with_starting(recipe, |part, due| part.resize(part.len().max(due), 0));
        load(&fitted, out)
    };
    for load in [longer, shorter] {
        assert!(loader_is_found(load));
    }
}

#[test]
fn a_checker_that_asks_for_another_length() {
    // a byte for each bay
    let one_byte: Check = |recipe| {
        let found = parts_of(recipe);
        let whole = |found: &Parts| found.starting.map_or(0, <[u8]>::len) == found.terms.len();
        match (check(recipe), found) {
            (answer, Some(found)) if answer.refusal == 0 && !whole(&found) => {
                refused(causes::STARTING)
            }
            (answer, _) => answer,
        }
    };
    // two bytes for each part but the table, itself among them
    let one_more: Check = |recipe| {
        let fitted = with_starting(recipe, |part, due| {
            let length = part.len();
            if length == due + STARTING_NUM_LENGTH {
                part.truncate(due);
            } else {
                part.resize(due + STARTING_NUM_LENGTH, 0);
            }
        });
        check(&fitted)
    };
    for check in [one_byte, one_more] {
        assert!(checker_is_found(check));
    }
}

#[test]
fn a_checker_that_gives_19_another_number() {
    fn told<const NUMBER: u32>(recipe: &[u8]) -> VerdictAnswer {
        let answer = check(recipe);
        match answer.refusal {
            causes::STARTING => refused(NUMBER),
            _ => answer,
        }
    }
    assert!(checker_is_found(told::<{ causes::OPENING }>));
    assert!(checker_is_found(told::<{ causes::LAYOUT }>));
    assert!(checker_is_found(told::<{ causes::NO_TERM }>));
    assert!(checker_is_found(told::<{ causes::SEED }>));
}

/// "tried after 11"
#[test]
fn a_checker_that_tries_19_before_another_cause() {
    fn before<const CAUSE: u32>(recipe: &[u8]) -> VerdictAnswer {
        let answer = check(recipe);
        let wrong = parts_of(recipe).map_or(false, |found| is_wrong(&found));
        if wrong && answer.refusal >= CAUSE {
            return refused(causes::STARTING);
        }
        answer
    }
    assert!(checker_is_found(before::<{ causes::BAY_ONCE }>));
    assert!(checker_is_found(before::<{ causes::LINEARITY }>));
    assert!(checker_is_found(before::<{ causes::TYPE }>));
    assert!(checker_is_found(before::<{ causes::ANNOTATION }>));
    assert!(checker_is_found(before::<{ causes::SCOPE }>));
    assert!(checker_is_found(before::<{ causes::NO_TERM }>));
    assert!(checker_is_found(before::<{ causes::TYPE_ENTRY }>));
}

/// "No length is zero": that is refused 3.
#[test]
fn a_checker_that_refuses_a_starting_part_of_no_byte_with_19() {
    fn filled(recipe: &[u8]) -> Option<Vec<u8>> {
        let third = (16..=MAX_FILE).contains(&recipe.len()) && recipe[2] == THIRD.number;
        let pairs = third.then(|| pairs(recipe)).flatten()?;
        let part = |pair: &model::format::Pair| {
            let bytes = recipe.get(pair.offset..pair.offset + pair.length);
            bytes.map(<[u8]>::to_vec)
        };
        let mut parts: Vec<Vec<u8>> = pairs.iter().map(part).collect::<Option<_>>()?;
        let empty = parts.get(1)?.is_empty();
        parts[1].push(0);
        empty.then(|| write_parts(THIRD.number, &parts))
    }
    assert!(checker_is_found(|recipe| match filled(recipe) {
        Some(filled) => check(&filled),
        None => check(recipe),
    }));
}

/// "the bays number the parts less two"
#[test]
fn a_checker_that_counts_the_starting_part_as_a_bay() {
    // for names
    let named: Check = |recipe| {
        let lowered = with_names(recipe, |k, bays| if k == bays { bays - 1 } else { k });
        check(lowered.as_deref().unwrap_or(recipe))
    };
    // in the answer
    let told: Check = |recipe| {
        let mut answer = check(recipe);
        if answer.refusal == 0 && recipe[2] == THIRD.number {
            answer.bays += 1;
        }
        answer
    };
    for check in [named, told] {
        assert!(checker_is_found(check));
    }
}

/// The bays go by n, also where the starting part is wrong.
#[test]
fn a_checker_that_counts_the_bays_by_the_starting_part() {
    fn nums(recipe: &[u8]) -> usize {
        let starting = parts_of(recipe).and_then(|found| found.starting);
        starting.map_or(0, |part| part.len() / STARTING_NUM_LENGTH)
    }
    // more of them, so that a name above b stands for a setting
    let more: Check = |recipe| {
        let answer = check(recipe);
        let bays = parts_of(recipe).map_or(0, |found| found.terms.len());
        if answer.refusal != causes::SCOPE || nums(recipe) <= bays {
            return answer;
        }
        let lowered = with_names(recipe, |k, bays| k.min(bays - 1));
        check(lowered.as_deref().unwrap_or(recipe))
    };
    // fewer, so that a name below b stands for none
    let fewer: Check = |recipe| {
        let answer = check(recipe);
        let named = parts_of(recipe).and_then(|found| {
            let terms = found.terms.iter().map(|term| read_term(&FORMS, term));
            terms.collect::<Option<Vec<_>>>()
        });
        let above = |node: &Node| match node {
            Node::Name(k) => usize::from(*k) >= nums(recipe),
            _ => false,
        };
        let is_above = named.map_or(false, |terms| terms.iter().flatten().any(above));
        match answer.refusal {
            causes::STARTING if is_above => refused(causes::SCOPE),
            _ => answer,
        }
    };
    for check in [more, fewer] {
        assert!(checker_is_found(check));
    }
}

/// "Its n runs from 3 to 18, else refusal 2"
#[test]
fn a_checker_with_another_range_of_n() {
    /// An honest answer but for this edition with that many parts, where 2 is given or another number.
    fn at<const EDITION: u8, const PARTS: usize>(recipe: &[u8]) -> VerdictAnswer {
        let answer = check(recipe);
        let here = recipe.get(2) == Some(&EDITION) && recipe.get(3) == Some(&(PARTS as u8));
        match answer.refusal {
            causes::FILE_LENGTH => answer,
            causes::OPENING if here && recipe.starts_with(&[0x4C, 0x46]) => refused(causes::LAYOUT),
            _ if here => refused(causes::OPENING),
            _ => answer,
        }
    }
    assert!(checker_is_found(at::<{ THIRD.number }, 2>));
    assert!(checker_is_found(at::<{ THIRD.number }, 3>));
    assert!(checker_is_found(at::<{ THIRD.number }, { MAX_BAYS + 2 }>));
    assert!(checker_is_found(at::<{ THIRD.number }, { MAX_BAYS + 3 }>));
    assert!(checker_is_found(at::<{ SECOND.number }, 2>));
    assert!(checker_is_found(at::<{ SECOND.number }, { MAX_BAYS + 2 }>));
    assert!(checker_is_found(at::<{ FIRST.number }, { MAX_BAYS + 2 }>));
}

/// "Edition 3 is edition 2 with a part between the type table and the terms"
#[test]
fn a_checker_that_takes_one_edition_for_another() {
    fn taken<const FROM: u8, const TO: u8>(recipe: &[u8]) -> VerdictAnswer {
        let mut other = recipe.to_vec();
        match other.get_mut(2) {
            Some(edition) if *edition == FROM => *edition = TO,
            _ => {}
        }
        check(&other)
    }
    const NONE: u8 = 0;
    assert!(checker_is_found(taken::<3, 2>));
    assert!(checker_is_found(taken::<2, 3>));
    assert!(checker_is_found(taken::<1, 3>));
    assert!(checker_is_found(taken::<3, NONE>));
    assert!(checker_is_found(taken::<4, 3>));
}

/// The starting part behind the terms, where edition 3 has it before them.
#[test]
fn a_checker_that_looks_for_the_starting_part_at_the_end() {
    assert!(checker_is_found(|recipe| {
        let found = match parts_of(recipe) {
            Some(found) => found,
            None => return check(recipe),
        };
        let mut all: Vec<Vec<u8>> = vec![found.table.to_vec()];
        let mut rest: Vec<&[u8]> = found.starting.into_iter().collect();
        rest.extend(&found.terms);
        rest.rotate_right(1);
        all.extend(rest.into_iter().map(<[u8]>::to_vec));
        check(&write_parts(THIRD.number, &all))
    }));
}

/// "Edition 3 is edition 2": its types and its nodes too.
#[test]
fn a_checker_without_pairs_and_lists_in_edition_3() {
    assert!(checker_is_found(|recipe| {
        let answer = check(recipe);
        let found = match parts_of(recipe) {
            Some(found) => found,
            None => return answer,
        };
        let mut all = vec![found.table.to_vec()];
        all.extend(found.terms.iter().map(|term| term.to_vec()));
        let first = check(&write_parts(FIRST.number, &all));
        match first.refusal {
            causes::TYPE_ENTRY | causes::NO_TERM => first,
            _ => answer,
        }
    }));
}

#[test]
fn a_loader_or_a_runner_that_tries_19_before_12() {
    let load_first: Load = |recipe, out| match check(recipe).refusal {
        causes::STARTING => load_refused(causes::STARTING),
        _ => load(recipe, out),
    };
    let run_first: Run = |recipe, turns, first, second| match check(recipe).refusal {
        causes::STARTING => RanAnswer::refused(causes::STARTING),
        _ => run(recipe, turns, first, second),
    };
    assert!(loader_is_found(load_first));
    assert!(runner_is_found(run_first));
}

/// A refusal leaves the out buffer as it was.
#[test]
fn a_loader_that_writes_before_it_refuses_with_19() {
    assert!(loader_is_found(|recipe, out| {
        let answer = load(recipe, out);
        if answer.refusal == causes::STARTING && out.len() >= MAX_IMAGE {
            out[0] ^= 1;
        }
        answer
    }));
}

/// "the runner passes it on"
#[test]
fn a_runner_that_does_not_pass_19_on() {
    let accepts: Run = |recipe, turns, first, second| {
        let fitted = with_starting(recipe, |part, due| part.resize(due, 0));
        run(&fitted, turns, first, second)
    };
    let renumbers: Run = |recipe, turns, first, second| {
        let answer = run(recipe, turns, first, second);
        match answer.refusal {
            causes::STARTING => RanAnswer::refused(causes::BAY_ONCE),
            _ => answer,
        }
    };
    for run in [accepts, renumbers] {
        assert!(runner_is_found(run));
    }
}

#[test]
fn a_runner_that_starts_at_zeros_or_at_the_nums_of_other_bays() {
    let zeros: Run = |recipe, turns, first, second| {
        let zeros = with_starting(recipe, |part, _| part.fill(0));
        run(&zeros, turns, first, second)
    };
    let reversed: Run = |recipe, turns, first, second| {
        let turned = with_starting(recipe, |part, _| {
            part.reverse();
            each(part, u16::swap_bytes);
        });
        run(&turned, turns, first, second)
    };
    for run in [zeros, reversed] {
        assert!(runner_is_found(run));
    }
}
