//! The comparison of lines finds test loads that are wrong in one thing (document 02, T-06).

mod impostor;

use impostor::{load, step};
use model::answers::{Model, SteppedAnswer, DONE, REFUSED, RULE};
use model::causes;
use model::command::on_deep_stack;
use model::editions::THIRD;
use model::format::{parts, starting_part, write_parts};
use model::generate::test_loads::inputs;
use model::image::names_of_kind;
use model::kinds::THREAD;
use model::limits::{MAX_DRAWS, MAX_FILE, MAX_IMAGE};
use model::test_load::{drawn_from, picked, printed, verdict_line, Drawn};

/// What a draw finds: the states before and after it, the threads at the load, and the image.
struct Found<'f> {
    before: u64,
    after: u64,
    at_load: &'f [u64],
    image: &'f [u8],
}

impl Found<'_> {
    fn draw(&self) -> u32 {
        self.after as u32
    }

    fn threads(&self) -> Vec<u64> {
        names_of_kind(self.image, THREAD)
    }
}

/// How a test load goes about it; each habit but the honest ones is wrong.
#[derive(Clone, Copy)]
struct Habits {
    /// What an absent byte of the first six counts as.
    absent: u8,
    /// The seed of the first four bytes, and the number of draws that is told.
    seed: fn([u8; 4]) -> u32,
    draws: fn(u16) -> u16,
    /// What is taken for the recipe, of the bytes after the sixth.
    recipe: fn(&[u8]) -> Vec<u8>,
    /// The refusal, by the recipe's verdict, the seed and the number of draws.
    refusal: fn(u32, u32, u16) -> u32,
    /// What is printed before the first draw.
    opening: &'static str,
    state: fn(u64) -> u64,
    thread: fn(&Found) -> u64,
    /// The image after a draw that is refused or idle, if it is another one.
    otherwise: fn(&[u8], &SteppedAnswer) -> Option<Vec<u8>>,
    /// Whether a draw that is refused or idle has a line.
    told: bool,
    line: fn(&Drawn) -> String,
}

const HONEST_HABITS: Habits = Habits {
    absent: 0,
    seed: u32::from_le_bytes,
    draws: |count| count.min(MAX_DRAWS),
    recipe: <[u8]>::to_vec,
    refusal: |verdict, seed, _| match (verdict, seed) {
        (0, 0) => causes::SEED,
        _ => verdict,
    },
    opening: "",
    state: |state| u64::from(drawn_from(state as u32)),
    thread: |found| picked(found.draw(), &found.threads()),
    otherwise: |_, _| None,
    told: true,
    line: |drawn| format!("{drawn}\n"),
};

/// The image after a step of that thread, if a rule moves it.
fn moved(image: &[u8], thread: u64) -> (SteppedAnswer, Option<Vec<u8>>) {
    let mut out = vec![0; MAX_IMAGE];
    let answer = step(image, thread, &mut out);
    let image = (answer.outcome == RULE).then(|| out[..answer.length as usize].to_vec());
    (answer, image)
}

/// The lines of a test load with these habits, over the honest load and the honest steps.
fn printed_with(habits: Habits, bytes: &[u8]) -> String {
    let mut front = bytes.to_vec();
    front.resize(front.len().max(6), habits.absent);
    let seed = (habits.seed)([front[0], front[1], front[2], front[3]]);
    let draws = (habits.draws)(u16::from_le_bytes([front[4], front[5]]));
    let mut image = vec![0; MAX_IMAGE];
    let loaded = load(&(habits.recipe)(&front[6..]), &mut image);
    match (habits.refusal)(loaded.refusal, seed, draws) {
        0 => image.truncate(loaded.length as usize),
        number => return verdict_line(number),
    }
    let at_load = names_of_kind(&image, THREAD);
    let mut state = u64::from(seed);
    let mut text = habits.opening.to_owned();
    for _ in 0..draws {
        let before = state;
        state = (habits.state)(state);
        let thread = (habits.thread)(&Found {
            before,
            after: state,
            at_load: &at_load,
            image: &image,
        });
        let (answer, after) = moved(&image, thread);
        if habits.told || after.is_some() {
            text += &(habits.line)(&Drawn { thread, answer });
        }
        let after = after.or_else(|| (habits.otherwise)(&image, &answer));
        image = after.unwrap_or(image);
    }
    text
}

/// Whether some input has other lines.
fn is_caught(habits: Habits) -> bool {
    on_deep_stack(|| {
        let mut inputs = inputs().into_iter();
        inputs.any(|bytes| printed_with(habits, &bytes) != printed(&Model, &bytes))
    })
}

fn all_are_caught<const N: usize>(all: [Habits; N]) {
    for (at, habits) in all.into_iter().enumerate() {
        assert!(is_caught(habits), "the one at {at}");
    }
}

/// An impostor with other habits.
macro_rules! with_habit {
    ($($habit:ident: $value:expr),*) => {
        Habits { $($habit: $value,)* ..HONEST_HABITS }
    };
}

#[test]
fn the_one_with_honest_habits_passes() {
    assert!(!is_caught(HONEST_HABITS));
}

/// A draw by three shifts, in 32 bits: to the left, to the right, to the left.
const fn shifted(state: u64, [first, right, last]: [u32; 3]) -> u64 {
    let state = state as u32;
    let state = state ^ (state << first);
    let state = state ^ (state >> right);
    (state ^ (state << last)) as u64
}

#[test]
fn a_draw_by_other_shifts() {
    assert!(!is_caught(
        with_habit!(state: |state| shifted(state, [13, 17, 5]))
    ));
    let all: [fn(u64) -> u64; 4] = [
        |state| shifted(state, [13, 15, 5]),
        |state| shifted(state, [5, 17, 13]),
        |state| shifted(state, [13, 17, 6]),
        |state| shifted(state, [12, 17, 5]),
    ];
    all_are_caught(all.map(|state| with_habit!(state: state)));
}

/// "then xor .., then xor ..": each shift is of what the one before gave.
#[test]
fn a_draw_that_shifts_the_old_state_each_time() {
    assert!(is_caught(with_habit!(state: |state| {
        let state = state as u32;
        u64::from(state ^ (state << 13) ^ (state >> 17) ^ (state << 5))
    })));
}

#[test]
fn a_draw_that_adds_or_turns_its_bits_round() {
    assert!(is_caught(with_habit!(state: |state| {
        let state = state as u32;
        let state = state.wrapping_add(state << 13);
        let state = state.wrapping_add(state >> 17);
        u64::from(state.wrapping_add(state << 5))
    })));
    assert!(is_caught(with_habit!(state: |state| {
        let state = state as u32;
        let state = state ^ state.rotate_left(13);
        let state = state ^ state.rotate_right(17);
        u64::from(state ^ state.rotate_left(5))
    })));
    // the sign is kept by the right shift
    assert!(is_caught(with_habit!(state: |state| {
        let state = state as i32;
        let state = state ^ (state << 13);
        let state = state ^ (state >> 17);
        u64::from((state ^ (state << 5)) as u32)
    })));
}

/// "bits beyond 32 dropped": of the draw alone, or not at all.
#[test]
fn a_draw_that_keeps_bits_beyond_32() {
    const fn kept(state: u64) -> u64 {
        let state = state ^ (state << 13);
        let state = state ^ (state >> 17);
        state ^ (state << 5)
    }
    assert!(is_caught(
        with_habit!(state: |state| kept(state) & 0xFFFF_FFFF)
    ));
    assert!(is_caught(with_habit!(state: |state| kept(state))));
}

#[test]
fn the_state_used_before_it_is_drawn() {
    assert!(is_caught(with_habit!(thread: |found| {
        picked(found.before as u32, &found.threads())
    })));
}

/// "modulo the present number of threads"
#[test]
fn a_thread_picked_among_others() {
    let all: [fn(&Found) -> u64; 3] = [
        // among all names
        |found| {
            let names = u16::from_le_bytes([found.image[0], found.image[1]]);
            u64::from(found.draw() % u32::from(names))
        },
        // among those that are not done
        |found| {
            let mut open = found.threads();
            open.retain(|thread| moved(found.image, *thread).0.outcome != DONE);
            match &open[..] {
                [] => picked(found.draw(), found.at_load),
                open => picked(found.draw(), open),
            }
        },
        // among those at the load
        |found| picked(found.draw(), found.at_load),
    ];
    all_are_caught(all.map(|thread| with_habit!(thread: thread)));
}

/// "counted in ascending number from 0"
#[test]
fn threads_counted_otherwise() {
    let all: [fn(&Found) -> u64; 6] = [
        // from 1, so that 0 is the last
        |found| {
            let threads = found.threads();
            let last = threads.len() as u32 - 1;
            picked(found.draw() % threads.len() as u32 + last, &threads)
        },
        // from 1, so that 0 is the second
        |found| {
            let threads = found.threads();
            picked(found.draw() % threads.len() as u32 + 1, &threads)
        },
        // in descending number
        |found| {
            let descending: Vec<u64> = found.threads().into_iter().rev().collect();
            picked(found.draw(), &descending)
        },
        // from the first thread's name, as if all names after it were threads
        |found| found.at_load[0] + u64::from(found.draw()) % found.threads().len() as u64,
        // with a sign
        |found| {
            let threads = found.threads();
            let place = (found.draw() as i32).rem_euclid(threads.len() as i32);
            threads[place as usize]
        },
        // by the draw's high bits
        |found| {
            let threads = found.threads();
            let place = (u64::from(found.draw()) * threads.len() as u64) >> 32;
            threads[place as usize]
        },
    ];
    all_are_caught(all.map(|thread| with_habit!(thread: thread)));
}

/// The image after a step of the first thread that a rule moves.
fn another_goes(image: &[u8]) -> Option<Vec<u8>> {
    let mut threads = names_of_kind(image, THREAD).into_iter();
    threads.find_map(|thread| moved(image, thread).1)
}

/// "A refused or idle draw keeps the image."
#[test]
fn a_refused_or_idle_draw_that_moves_the_image() {
    assert!(is_caught(with_habit!(otherwise: |image, answer| {
        (answer.outcome == REFUSED).then(|| another_goes(image))?
    })));
    assert!(is_caught(with_habit!(otherwise: |image, answer| {
        (answer.outcome != REFUSED).then(|| another_goes(image))?
    })));
}

/// "one line for each draw and no other"
#[test]
fn lines_too_many_or_too_few() {
    assert!(is_caught(with_habit!(opening: "verdict 0\n")));
    assert!(is_caught(with_habit!(told: false)));
}

#[test]
fn lines_in_another_form() {
    let all: [fn(&Drawn) -> String; 8] = [
        |drawn| drawn.to_string(),
        |drawn| format!("{drawn} \n"),
        |drawn| format!("{drawn}\r\n"),
        |drawn| format!("{drawn}\n").replace(' ', "  "),
        |drawn| format!("{drawn}\n").replace("step", "rule"),
        |drawn| format!("{drawn}\n").replace(" done 0", " done"),
        |drawn| format!("{drawn}\n").replace("refused 15", "refused 12"),
        |drawn| format!("{:02X} {}\n", drawn.thread, drawn.answer.number),
    ];
    all_are_caught(all.map(|line| with_habit!(line: line)));
}

/// "tried after the recipe is accepted"
#[test]
fn a_seed_of_zero_treated_otherwise() {
    let all: [fn(u32, u32, u16) -> u32; 4] = [
        // before the recipe
        |verdict, seed, _| if seed == 0 { causes::SEED } else { verdict },
        // only where there are draws
        |verdict, seed, draws| match (verdict, seed) {
            (0, 0) if draws > 0 => causes::SEED,
            _ => verdict,
        },
        // not at all
        |verdict, _, _| verdict,
        // with another number
        |verdict, seed, _| match (verdict, seed) {
            (0, 0) => causes::FILE_LENGTH,
            _ => verdict,
        },
    ];
    all_are_caught(all.map(|refusal| with_habit!(refusal: refusal)));
}

#[test]
fn a_seed_with_its_high_byte_first_or_of_two_bytes() {
    assert!(is_caught(with_habit!(seed: u32::from_be_bytes)));
    assert!(is_caught(
        with_habit!(seed: |b| u32::from_le_bytes([b[0], b[1], 0, 0]))
    ));
}

/// Where one is absent there is no recipe, and that is refused whatever the six say.
#[test]
fn a_test_load_to_which_absent_bytes_are_not_0_answers_the_same() {
    assert!(!is_caught(with_habit!(absent: 0xFF)));
}

/// "a number above 10,000 as 10,000"
#[test]
fn another_number_of_draws() {
    let all: [fn(u16) -> u16; 8] = [
        |count| count.swap_bytes().min(MAX_DRAWS),
        |count| count,
        |count| count % MAX_DRAWS,
        |count| count % (MAX_DRAWS + 1),
        |count| count.min(MAX_DRAWS - 1),
        |count| count.min(MAX_DRAWS + 1),
        |count| if count > MAX_DRAWS { 0 } else { count },
        |count| count.clamp(1, MAX_DRAWS),
    ];
    all_are_caught(all.map(|draws| with_habit!(draws: draws)));
}

/// What is too long is refused.
#[test]
fn a_recipe_that_is_cut() {
    assert!(is_caught(
        with_habit!(recipe: |bytes| bytes[..bytes.len().min(MAX_FILE)].to_vec())
    ));
    assert!(is_caught(
        with_habit!(recipe: |bytes| bytes[..bytes.len().min(MAX_FILE - 6)].to_vec())
    ));
}

/// 19 is "tried after 11 and before 18" (T-07).
#[test]
fn a_starting_part_of_another_length_treated_otherwise() {
    let all: [fn(u32, u32, u16) -> u32; 3] = [
        // after the seed
        |verdict, seed, _| match (verdict, seed) {
            (0 | causes::STARTING, 0) => causes::SEED,
            _ => verdict,
        },
        // with another number
        |verdict, seed, _| match (verdict, seed) {
            (0, 0) => causes::SEED,
            (causes::STARTING, _) => causes::LAYOUT,
            _ => verdict,
        },
        // before the bays' types
        |verdict, seed, _| match (verdict, seed) {
            (0, 0) => causes::SEED,
            (causes::BAY_ONCE, _) => causes::STARTING,
            _ => verdict,
        },
    ];
    all_are_caught(all.map(|refusal| with_habit!(refusal: refusal)));
}

#[test]
fn a_starting_part_of_another_length_that_is_not_told() {
    assert!(is_caught(with_habit!(recipe: |bytes| {
        let verdict = load(bytes, &mut vec![0; MAX_IMAGE]).refusal;
        let found = (verdict == causes::STARTING).then(|| parts(THIRD, bytes));
        let found = match found.flatten() {
            Some(found) => found,
            None => return bytes.to_vec(),
        };
        let zeros = THIRD.zeros(found.terms.len());
        let mut all = vec![found.table.to_vec(), starting_part(&zeros)];
        all.extend(found.terms.iter().map(|term| term.to_vec()));
        write_parts(THIRD.number, &all)
    })));
}
