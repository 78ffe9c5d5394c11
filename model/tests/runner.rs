//! Document 02, T-04, "A house runner": what its words say, each with a small house.

mod common;

use common::*;
use model::answers::{Implementation, Model, Plain, RanAnswer, IDLE, ROOM, TURNS};
use model::causes;
use model::command::on_deep_stack;
use model::comparison::Comparison;
use model::draw::Draw;
use model::editions::FIRST;
use model::generate;
use model::houses::{self, Bay, Makes};
use model::image::read_image;
use model::limits::{MAX_IMAGE, MAX_NAMES};
use model::load::{load, Loaded};
use model::runner::{look, numbers_from, Look, Stop};
use model::step::{step, Outcome};
use model::tool::run::order::Order;
use model::tool::run::runner::Runner;
use model::tool::write::made;
use std::collections::BTreeMap;

/// The answer of a run between two buffers of that length, and the last image. The plain twin's are
/// the same.
fn run_into(file: &[u8], turns: u16, lengths: [usize; 2]) -> (RanAnswer, Vec<u8>) {
    let run = |implementation: &dyn Implementation| {
        let mut outs = lengths.map(|length| vec![0xA5; length]);
        let [first, second] = &mut outs;
        let answer = implementation.run(file, turns, first, second);
        let answer = answer.expect("it has a runner");
        if answer.refusal != 0 {
            let kept = outs.iter().flatten().all(|byte| *byte == 0xA5);
            assert!(kept, "a refusal writes nothing");
        }
        let last = &outs[answer.buffer as usize];
        (answer, last[..answer.length as usize].to_vec())
    };
    let model = on_deep_stack(|| run(&Model));
    assert_eq!(run(&Plain), model, "the plain twin");
    model
}

fn ran(file: &[u8], turns: u16) -> (RanAnswer, Vec<u8>) {
    run_into(file, turns, [MAX_IMAGE; 2])
}

/// Why it stopped, and the turns taken.
fn ended(file: &[u8], turns: u16) -> (u32, u32) {
    let (answer, _) = ran(file, turns);
    assert_eq!(answer.refusal, 0);
    assert_eq!(answer.buffer, answer.turns % 2, "steps alternate");
    (answer.stop, answer.turns)
}

/// The recipe of a text.
fn of_text(text: &str) -> Vec<u8> {
    made(text.as_bytes(), false).expect("a recipe")
}

fn house(bays: &[Bay]) -> Vec<u8> {
    houses::house(FIRST, bays).write()
}

/// A turn: the thread that was stepped, and its rule; the names that were passed over before it, and
/// those of them that lacked room; how many names there are then.
#[derive(Debug, Clone, PartialEq, Eq)]
struct Turn {
    thread: u64,
    rule: u8,
    passed: Vec<u64>,
    lacked: Vec<u64>,
    names: u64,
}

fn names_of(image: &[u8]) -> u64 {
    u64::from(u16::from_le_bytes([image[0], image[1]]))
}

/// The turns of a house one by one, by the model's steps alone.
fn turns_of(file: &[u8], most: usize) -> Vec<Turn> {
    on_deep_stack(|| {
        let mut out = vec![0; MAX_IMAGE];
        let mut image = match load(file, &mut out) {
            Loaded::Accepted(_, length) => out[..length].to_vec(),
            Loaded::Refused(number) => panic!("refused {number}"),
        };
        let mut turns: Vec<Turn> = Vec::new();
        while turns.len() < most {
            let names = names_of(&image);
            let from = turns.last().map_or(0, |turn| turn.thread + 1);
            let (mut passed, mut lacked) = (Vec::new(), Vec::new());
            let gone = (from..names).chain(0..from).find_map(|name| {
                let outcome = step(&image, name, &mut out);
                if let Outcome::Rule(rule, length) = outcome {
                    return Some((name, rule, length));
                }
                passed.push(name);
                if outcome == Outcome::Refused(causes::ROOM) {
                    lacked.push(name);
                }
                None
            });
            let (thread, rule, length) = match gone {
                Some(gone) => gone,
                None => break,
            };
            image = out[..length].to_vec();
            turns.push(Turn {
                thread,
                rule,
                passed,
                lacked,
                names: names_of(&image),
            });
        }
        turns
    })
}

fn threads(turns: &[Turn]) -> Vec<u64> {
    turns.iter().map(|turn| turn.thread).collect()
}

/// Cases A, B and C of document 01.
#[test]
fn the_cases_of_document_01() {
    let case_a = recipe(A, "03");
    let case_b = recipe(T5, "02 02 06 04 09 00 04 FA 00");
    let case_c = recipe(T7, "02 08 06 01 05 01 04 02 00 00 00 01");
    for (file, steps) in [(case_a, 0), (case_b, 1), (case_c, 4)] {
        assert_eq!(ended(&file, 0), (TURNS, 0));
        let one = if steps == 0 { (IDLE, 0) } else { (TURNS, 1) };
        assert_eq!(ended(&file, 1), one);
        assert_eq!(ended(&file, 100), (IDLE, steps));
        let (rules, last) = run(&file, &vec![1; steps as usize]);
        assert!(rules.iter().all(|rule| *rule > 0), "each is a step");
        assert_eq!(ran(&file, 100).1, last);
    }
}

/// "k from 0": the load alone, in the first buffer.
#[test]
fn no_turns() {
    let file = house(&[Bay::Loops(Makes::Nothing), Bay::Steps(3)]);
    let (answer, image) = ran(&file, 0);
    assert_eq!((answer.stop, answer.turns, answer.buffer), (TURNS, 0, 0));
    assert_eq!(image, run(&file, &[]).1);
}

/// "to 65,535"
#[test]
fn the_most_turns() {
    let file = house(&[Bay::Loops(Makes::Nothing)]);
    assert_eq!(ended(&file, u16::MAX), (TURNS, 65_535));
}

/// "12 first and for either buffer, whatever k"
#[test]
fn short_buffers() {
    let accepted = house(&[Bay::Steps(3)]);
    let refused = recipe(A, "02 03 03");
    let short = MAX_IMAGE - 1;
    for turns in [0, 1, 100, u16::MAX] {
        for file in [&accepted[..], &refused, &[]] {
            for lengths in [
                [short, MAX_IMAGE],
                [MAX_IMAGE, short],
                [short; 2],
                [0, MAX_IMAGE],
                [MAX_IMAGE, 0],
                [0; 2],
            ] {
                let (answer, _) = run_into(file, turns, lengths);
                assert_eq!(answer, RanAnswer::refused(causes::BUFFER), "{lengths:?}");
            }
        }
        assert_eq!(ran(&refused, turns).0, RanAnswer::refused(causes::TYPE));
        assert_eq!(ran(&[], turns).0, RanAnswer::refused(causes::FILE_LENGTH));
        let (answer, _) = run_into(&accepted, turns, [MAX_IMAGE, MAX_IMAGE + 1]);
        assert_eq!(answer.refusal, 0);
    }
}

/// "going round by number from the one after the last stepped", itself at the end.
#[test]
fn the_numbers_of_a_look() {
    let numbers = |last, names| numbers_from(last, names).collect::<Vec<_>>();
    assert_eq!(numbers(None, 4), [0, 1, 2, 3]);
    assert_eq!(numbers(Some(0), 4), [1, 2, 3, 0]);
    assert_eq!(numbers(Some(2), 4), [3, 0, 1, 2]);
    assert_eq!(numbers(Some(3), 4), [0, 1, 2, 3]);
    assert_eq!(numbers(Some(3), 6), [4, 5, 0, 1, 2, 3]);
}

#[test]
fn three_bays_take_turns_until_each_is_done() {
    let file = house(&[Bay::Steps(1), Bay::Steps(3), Bay::Done, Bay::Steps(2)]);
    let order = [4, 5, 7, 5, 7, 5];
    assert_eq!(threads(&turns_of(&file, 10)), order);
    for turns in 0..=6 {
        assert_eq!(ended(&file, turns), (TURNS, u32::from(turns)));
        let (_, image) = ran(&file, turns);
        assert_eq!(image, run(&file, &order[..usize::from(turns)]).1);
    }
    assert_eq!(ended(&file, 7), (IDLE, 6));
}

/// A name that the last step made is looked at before the round begins anew.
#[test]
fn a_new_thread_goes_in_the_same_round() {
    let file = of_text(
        "bay 0 = (λx:unit. (λy:unit. y) unit) (thread[(unit →ω unit) →ω unit] (λz:unit. unit))\n\
         bay 1 = (λx:unit. x) ((λx:unit. x) unit)\n",
    );
    // 2 makes 4, 3 goes, 4 goes, and only then 2 again
    let order = [2, 3, 4, 2, 3, 2];
    assert_eq!(threads(&turns_of(&file, 10)), order);
    for turns in 0..=6 {
        let (answer, image) = ran(&file, turns);
        assert_eq!(answer.turns, u32::from(turns));
        assert_eq!(image, run(&file, &order[..usize::from(turns)]).1);
    }
}

/// The last thread makes one: the new number is the next one, though the round was at its end.
#[test]
fn the_numbers_grow_within_a_round() {
    let file = of_text(
        "bay 0 = (λx:unit. (λy:unit. y) unit) (thread[(unit →ω unit) →ω unit] (λz:unit. unit))\n",
    );
    let order = [1, 2, 1, 1];
    assert_eq!(threads(&turns_of(&file, 10)), order);
    assert_eq!(ran(&file, 2).1, run(&file, &order[..2]).1);
    assert_ne!(ran(&file, 2).1, run(&file, &[1, 1]).1);
    assert_eq!(ended(&file, 9), (IDLE, 4));
}

/// "after k turns it looks no further": nothing is said, though no thread could go, and though one
/// lacks room.
#[test]
fn after_all_turns_nothing_is_said() {
    let done = house(&[Bay::Steps(2)]);
    assert_eq!(ended(&done, 2), (TURNS, 2));
    assert_eq!(ended(&done, 3), (IDLE, 2));
    let full = house(&[Bay::Doubles(11)]);
    let (stop, turns) = ended(&full, 100);
    assert_eq!(stop, ROOM);
    assert_eq!(ended(&full, turns as u16), (TURNS, turns));
    assert_eq!(ended(&full, turns as u16 + 1), (ROOM, turns));
    assert_eq!(ended(&full, u16::MAX), (ROOM, turns));
}

/// "lack of room only passes a thread over": the others go on.
#[test]
fn a_house_that_lacks_names_goes_on_with_its_other_bays() {
    for makes in [Makes::Cells, Makes::Threads, Makes::Handles] {
        let alone = house(&[Bay::Loops(makes)]);
        let (stop, turns) = ended(&alone, 2_000);
        assert_eq!(stop, ROOM, "{makes:?}");
        assert!(turns < 2_000, "{makes:?}");
        let names = ran(&alone, 2_000).1[..2].to_vec();
        assert!(names >= vec![255, 0] || names == vec![0, 1], "{names:?}");
        let beside = house(&[Bay::Loops(makes), Bay::Loops(Makes::Nothing)]);
        assert_eq!(ended(&beside, 3_000), (TURNS, 3_000));
    }
}

/// Bay 1 keeps lacking room while bay 0 holds a large value, and goes when that is dropped. That it
/// lacked room before is not said at the end.
#[test]
fn a_thread_is_passed_over_for_room_many_times_and_goes_then() {
    let file = house(&[Bay::Holds(8, 25), Bay::Doubles(9)]);
    let turns = turns_of(&file, 200);
    let passed: Vec<&Turn> = turns.iter().filter(|turn| turn.lacked == [3]).collect();
    assert!(passed.len() >= 20, "{turns:?}");
    assert!(passed.iter().all(|turn| turn.thread == 2), "{turns:?}");
    let later = turns.iter().rev().take_while(|turn| turn.thread == 3);
    assert!(later.count() >= 1, "{turns:?}");
    assert_eq!(ended(&file, 500), (IDLE, turns.len() as u32));
    let (rules, last) = run(&file, &threads(&turns));
    let told: Vec<u8> = turns.iter().map(|turn| turn.rule).collect();
    assert_eq!(rules, told);
    assert_eq!(ran(&file, 500).1, last);
}

/// Two bays lack room at once, others wait or are done: "says whether one lacked room".
#[test]
fn one_that_lacks_room_is_enough() {
    let file = house(&[Bay::Waits, Bay::Done, Bay::Doubles(11)]);
    assert_eq!(ended(&file, 100).0, ROOM);
    let waits = house(&[Bay::Waits, Bay::Done]);
    assert_eq!(ended(&waits, 100).0, IDLE);
}

/// What a look answers.
#[test]
fn looks() {
    let image = |file: &[u8]| read_image(&run(file, &[]).1).expect("an image");
    let idle = image(&house(&[Bay::Done]));
    assert_eq!(look(&idle, None), Look::None(Stop::Idle));
    let goes = image(&house(&[Bay::Done, Bay::Steps(1)]));
    assert!(matches!(look(&goes, Some(3)), Look::Goes(3, 1, _)));
    let used = image_of(&[
        used_handle(),
        thread(&application(vec![model::nodes::Node::Name(0)], unit())),
    ]);
    let used = read_image(&used).expect("an image");
    assert_eq!(look(&used, None), Look::Refused(causes::USED_HANDLE));
}

/// The most steps of others that a thread sees before its own: since its last step, since it was
/// passed over, or since there is such a name.
fn most_seen(turns: &[Turn]) -> usize {
    let mut since: BTreeMap<u64, usize> = BTreeMap::new();
    let mut most = 0;
    for (now, turn) in turns.iter().enumerate() {
        for name in &turn.passed {
            since.insert(*name, now);
        }
        let begin = since.get(&turn.thread).copied().unwrap_or(0);
        most = most.max(now - begin);
        since.insert(turn.thread, now + 1);
        let before = now.checked_sub(1).map_or(turn.names, |at| turns[at].names);
        for name in before..turn.names {
            since.insert(name, now + 1);
        }
    }
    most
}

/// "finds room when its number comes round" is of each coming round: one that is passed over for room
/// sees more than 255 steps of others before its own, but never so many from one passing on.
#[test]
fn one_that_is_passed_over_starts_anew() {
    let mut bays = vec![Bay::Holds(8, 25), Bay::Doubles(9)];
    bays.extend([Bay::Loops(Makes::Nothing); 12]);
    let cramped = (bays.len() + 1) as u64;
    let turns = turns_of(&house(&bays), 1_000);
    let own = (0..turns.len()).filter(|at| turns[*at].thread == cramped);
    let own: Vec<usize> = own.collect();
    let gaps = own.windows(2).map(|pair| pair[1] - pair[0] - 1);
    assert!(gaps.max() > Some(255), "{own:?}");
    assert!(most_seen(&turns) <= 255);
}

/// "No thread .. sees more than 255 steps of others before its own." One name is a setting, so 254
/// others are the most: 255 threads that all go.
#[test]
fn a_thread_sees_254_steps_of_others_in_a_crowd() {
    let file = houses::crowd().write();
    let turns = turns_of(&file, 2_000);
    assert_eq!(most_seen(&turns), 254);
    assert_eq!(ended(&file, 2_000), (IDLE, turns.len() as u32));
    assert_eq!(ran(&file, 2_000).1[..2], (MAX_NAMES as u16).to_le_bytes());
}

#[test]
fn no_thread_of_a_drawn_house_sees_more_than_255() {
    let mut draw = Draw::new(255);
    for _ in 0..20 {
        let file = generate::houses::house(&mut draw).write();
        if Model.check(&file).refusal == 0 {
            let most = most_seen(&turns_of(&file, 400));
            assert!(most <= 255, "{most}");
        }
    }
}

/// The house of the benchmark: 256 names, one thread that goes, 253 that wait.
#[test]
fn the_house_where_most_wait() {
    let file = houses::most_wait().write();
    let (answer, image) = ran(&file, 1_500);
    assert_eq!((answer.stop, answer.turns), (TURNS, 1_500));
    let now = read_image(&image).expect("an image");
    assert_eq!(now.names(), MAX_NAMES);
    let answers = (0..MAX_NAMES as u64).map(|name| step_thread(&image, name));
    let answers: Vec<Outcome> = answers.collect();
    let waits = |answer: &&Outcome| matches!(answer, Outcome::Waiting(_));
    assert_eq!(answers.iter().filter(waits).count(), 253);
    let goes = |answer: &Outcome| matches!(answer, Outcome::Rule(..));
    let going: Vec<usize> = (0..MAX_NAMES)
        .filter(|name| goes(&answers[*name]))
        .collect();
    assert_eq!(going, [1]);
}

#[test]
fn the_houses_where_one_moves_and_where_all_move() {
    let one = turns_of(&houses::one_moves().write(), 100);
    assert!(one[3..].iter().all(|turn| turn.thread == 16), "{one:?}");
    let all = turns_of(&houses::all_move().write(), 1_000);
    assert_eq!(most_seen(&all[500..]), 15);
}

/// The comparison meets every stop and every refusal, and the plain twin passes it.
#[test]
fn every_stop_and_every_refusal_comes() {
    on_deep_stack(|| {
        let mut comparison = Comparison::new(&Plain);
        let result = comparison.compare(4, 8_000);
        assert!(result.is_ok(), "{result:?}");
        let counts = comparison.counts;
        println!("{counts}");
        let expected = (0..=causes::BUFFER).chain([causes::STARTING]);
        let came = (0..).zip(counts.runs).filter(|(_, count)| *count > 0);
        assert!(came.map(|(number, _)| number).eq(expected), "{counts}");
        assert!(counts.stops.iter().all(|count| *count > 10), "{counts}");
    });
}

/// `recipe run` without an order takes the runner's turns, and ends for the same reason.
#[test]
fn the_tool_takes_the_same_turns() {
    let mut draw = Draw::new(31);
    for _ in 0..60 {
        let file = match draw.below(2) {
            0 => generate::houses::house(&mut draw).write(),
            _ => generate::recipes::well_typed(&mut draw).write(),
        };
        let turns = draw.between(0, 80) as u16;
        if Model.check(&file).refusal != 0 {
            continue;
        }
        let (answer, last) = ran(&file, turns);
        let mut tool = Runner::new(&Plain, run(&file, &[]).1);
        let mut order = Order::Runner(0);
        let taken = (0..turns).map_while(|_| tool.turn(&mut order).taken.ok());
        assert_eq!(taken.count(), answer.turns as usize);
        assert_eq!(tool.image, last);
        if answer.turns < u32::from(turns) {
            let ending = tool.turn(&mut order).taken.expect_err("it has ended");
            assert_eq!(ending.stop(), Some(answer.stop));
        }
    }
}
