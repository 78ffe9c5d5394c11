//! The comparison finds runners that are wrong in one thing (document 02, T-04).

mod impostor;

use impostor::*;
use model::answers::{RanAnswer, IDLE, REFUSED, ROOM, RULE, TURNS};
use model::causes;
use model::limits::MAX_IMAGE;

/// How a runner goes about it; each habit but the honest ones is wrong.
#[derive(Clone, Copy)]
struct Habits {
    /// From which number the next look begins, after a step of that thread.
    next: fn(u64) -> u64,
    /// The number where the first look begins, by that of the bays.
    first: fn(u64) -> u64,
    /// How many names a look goes over, by how many there are at the turn and were at the load.
    names: fn(u64, u64) -> u64,
    /// Whether a look goes on after a thread that lacks room.
    past_lack_of_room: bool,
    /// Whether a thread that is passed over takes a turn.
    passing_counts: bool,
    /// Why it stops: whether a thread lacked room in this look, and in any look.
    stop: fn(bool, bool) -> u32,
    /// Which buffers are refused for their length.
    short: fn(u16, usize, usize) -> bool,
}

const HONEST_HABITS: Habits = Habits {
    next: |thread| thread + 1,
    first: |_| 0,
    names: |now, _| now,
    past_lack_of_room: true,
    passing_counts: false,
    stop: |now, _| if now { ROOM } else { IDLE },
    short: |_, first, second| first < MAX_IMAGE || second < MAX_IMAGE,
};

fn names(image: &[u8]) -> u64 {
    u64::from(u16::from_le_bytes([image[0], image[1]]))
}

/// A runner with these habits, over the honest load and the honest steps.
fn run_with(
    habits: Habits,
    recipe: &[u8],
    turns: u16,
    first: &mut [u8],
    second: &mut [u8],
) -> RanAnswer {
    if (habits.short)(turns, first.len(), second.len()) {
        return RanAnswer::refused(causes::BUFFER);
    }
    let mut image = vec![0; MAX_IMAGE];
    let mut out = image.clone();
    let loaded = load(recipe, &mut image);
    if loaded.refusal != 0 {
        return RanAnswer::refused(loaded.refusal);
    }
    image.truncate(loaded.length as usize);
    let at_load = names(&image);
    let (mut from, mut taken) = ((habits.first)(u64::from(loaded.bays)), 0);
    let (mut ever, mut left) = (false, turns);
    let mut stop = TURNS;
    'turns: while left > 0 {
        let count = (habits.names)(names(&image), at_load);
        let mut lacks = false;
        for more in 0..count {
            let thread = (from + more) % count;
            let stepped = step(&image, thread, &mut out);
            if stepped.outcome == RULE {
                image = out[..stepped.length as usize].to_vec();
                from = (habits.next)(thread);
                (taken, left, ever) = (taken + 1, left - 1, ever | lacks);
                continue 'turns;
            }
            lacks |= (stepped.outcome, stepped.number) == (REFUSED, causes::ROOM);
            if lacks && !habits.past_lack_of_room {
                break;
            }
            left -= u16::from(habits.passing_counts && stepped.number != causes::NO_THREAD);
            if left == 0 {
                break 'turns;
            }
        }
        ever |= lacks;
        stop = (habits.stop)(lacks, ever);
        break;
    }
    let buffer = if taken % 2 == 0 { first } else { second };
    let room = buffer.len().min(image.len());
    buffer[..room].copy_from_slice(&image[..room]);
    RanAnswer {
        refusal: 0,
        stop,
        turns: taken,
        buffer: taken % 2,
        length: image.len() as u64,
    }
}

/// Whether the comparison finds it; stops for want of room are rare among what is drawn.
fn is_caught(run: Run) -> bool {
    is_found_among(&with_run(run), 2_000)
}

/// An impostor with one other habit.
macro_rules! with_habit {
    ($($habit:ident: $value:expr),*) => {{
        let run: Run = |recipe, turns, first, second| {
            let habits = Habits { $($habit: $value,)* ..HONEST_HABITS };
            run_with(habits, recipe, turns, first, second)
        };
        run
    }};
}

#[test]
fn the_one_with_honest_habits_passes() {
    assert!(!is_caught(with_habit!()));
}

#[test]
fn a_runner_that_starts_at_the_last_stepped_or_two_after_it_or_always_at_the_lowest() {
    assert!(is_caught(with_habit!(next: |thread| thread)));
    assert!(is_caught(with_habit!(next: |thread| thread + 2)));
    assert!(is_caught(with_habit!(next: |_| 0)));
}

#[test]
fn a_runner_whose_first_turn_starts_at_the_second_thread() {
    assert!(is_caught(with_habit!(first: |bays| bays + 1)));
}

/// Name 0 is a setting in every house, so a look from 1 finds the same thread.
#[test]
fn a_runner_whose_first_turn_starts_at_1_answers_the_same() {
    assert!(!is_caught(with_habit!(first: |_| 1)));
}

#[test]
fn a_runner_that_sees_no_new_names() {
    assert!(is_caught(with_habit!(names: |_, at_load| at_load)));
}

#[test]
fn a_runner_that_stops_at_the_first_thread_that_lacks_room() {
    assert!(is_caught(with_habit!(past_lack_of_room: false)));
}

#[test]
fn a_runner_that_counts_a_thread_passed_over_as_a_turn() {
    assert!(is_caught(with_habit!(passing_counts: true)));
}

#[test]
fn a_runner_that_says_idle_where_room_lacks_or_room_where_none_lacks() {
    assert!(is_caught(with_habit!(stop: |_, _| IDLE)));
    assert!(is_caught(with_habit!(stop: |_, _| ROOM)));
    assert!(is_caught(
        with_habit!(stop: |now, _| if now { IDLE } else { ROOM })
    ));
}

#[test]
fn a_runner_that_says_room_where_a_thread_lacked_it_in_an_earlier_look() {
    assert!(is_caught(
        with_habit!(stop: |_, ever| if ever { ROOM } else { IDLE })
    ));
}

#[test]
fn a_runner_that_tries_the_length_of_one_buffer_or_not_for_no_turns() {
    assert!(is_caught(
        with_habit!(short: |_, first, _| first < MAX_IMAGE)
    ));
    assert!(is_caught(
        with_habit!(short: |_, _, second| second < MAX_IMAGE)
    ));
    assert!(is_caught(with_habit!(
        short: |turns, first, second| turns > 0 && first.min(second) < MAX_IMAGE
    )));
}

/// The honest runner's answer, changed where the recipe was not refused.
fn changed(
    recipe: &[u8],
    turns: u16,
    (first, second): (&mut [u8], &mut [u8]),
    change: fn(&mut RanAnswer),
) -> RanAnswer {
    let mut answer = run(recipe, turns, first, second);
    if answer.refusal == 0 {
        change(&mut answer);
    }
    answer
}

#[test]
fn a_runner_that_names_the_other_buffer_or_another_number_of_turns_or_another_length() {
    let other: Run = |recipe, turns, first, second| {
        changed(recipe, turns, (first, second), |answer| answer.buffer ^= 1)
    };
    let more: Run = |recipe, turns, first, second| {
        changed(recipe, turns, (first, second), |answer| answer.turns += 1)
    };
    let longer: Run = |recipe, turns, first, second| {
        changed(recipe, turns, (first, second), |answer| answer.length += 1)
    };
    for run in [other, more, longer] {
        assert!(is_caught(run));
    }
}

#[test]
fn a_runner_that_takes_no_turn() {
    let none: Run = |recipe, _, first, second| run(recipe, 0, first, second);
    assert!(is_caught(none));
}

#[test]
fn a_runner_that_repeats_the_image_after_the_first_turn() {
    let repeats: Run = |recipe, turns, first, second| {
        let answer = run(recipe, turns, first, second);
        if answer.turns < 2 {
            return answer;
        }
        let mut images = [vec![0; MAX_IMAGE], vec![0; MAX_IMAGE]];
        let [one, other] = &mut images;
        let length = run(recipe, 1, one, other).length;
        let out = if answer.buffer == 0 { first } else { second };
        out[..length as usize].copy_from_slice(&other[..length as usize]);
        RanAnswer { length, ..answer }
    };
    assert!(is_caught(repeats));
}

/// What one more look would say after all turns.
fn looks_further(recipe: &[u8], turns: u16, wanted: u32, answer: RanAnswer) -> RanAnswer {
    let mut images = [vec![0; MAX_IMAGE], vec![0; MAX_IMAGE]];
    let [first, second] = &mut images;
    let further = run(recipe, turns.saturating_add(1), first, second);
    if answer.refusal == 0 && answer.stop == TURNS && further.stop == wanted {
        return RanAnswer {
            stop: wanted,
            ..answer
        };
    }
    answer
}

#[test]
fn a_runner_that_says_idle_or_room_after_all_turns() {
    let idle: Run = |recipe, turns, first, second| {
        let answer = run(recipe, turns, first, second);
        looks_further(recipe, turns, IDLE, answer)
    };
    let room: Run = |recipe, turns, first, second| {
        let answer = run(recipe, turns, first, second);
        looks_further(recipe, turns, ROOM, answer)
    };
    for run in [idle, room] {
        assert!(is_caught(run));
    }
}

#[test]
fn a_runner_that_writes_on_a_refusal() {
    let first_byte: Run = |recipe, turns, first, second| {
        let answer = run(recipe, turns, first, second);
        if let (true, Some(byte)) = (answer.refusal != 0, first.first_mut()) {
            *byte ^= 1;
        }
        answer
    };
    let last_byte: Run = |recipe, turns, first, second| {
        let answer = run(recipe, turns, first, second);
        if let (true, Some(byte)) = (answer.refusal != 0, second.last_mut()) {
            *byte ^= 1;
        }
        answer
    };
    for run in [first_byte, last_byte] {
        assert!(is_caught(run));
    }
}

#[test]
fn a_runner_that_tries_the_recipe_before_the_buffers_or_passes_lack_of_room_on() {
    let recipe_first: Run = |recipe, turns, first, second| {
        let refusal = check(recipe).refusal;
        if refusal != 0 {
            return RanAnswer::refused(refusal);
        }
        run(recipe, turns, first, second)
    };
    let passes_on: Run = |recipe, turns, first, second| {
        let before = [first.to_vec(), second.to_vec()];
        let answer = run(recipe, turns, first, second);
        if answer.stop == ROOM {
            first.copy_from_slice(&before[0]);
            second.copy_from_slice(&before[1]);
            return RanAnswer::refused(causes::ROOM);
        }
        answer
    };
    for run in [recipe_first, passes_on] {
        assert!(is_caught(run));
    }
}

/// What the other buffer and the bytes beyond the last image hold is free.
#[test]
fn a_runner_that_fills_what_is_free_passes() {
    let fills: Run = |recipe, turns, first, second| {
        let answer = run(recipe, turns, first, second);
        if answer.refusal == 0 {
            let (last, other) = match answer.buffer {
                0 => (first, second),
                _ => (second, first),
            };
            last[answer.length as usize..].fill(0xA5);
            other.fill(0x5A);
        }
        answer
    };
    assert!(!is_caught(fills));
}
