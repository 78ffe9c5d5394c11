//! A run as lines of text.

use crate::answers::RanAnswer;
use crate::causes;
use crate::profile::Profile;
use crate::tool::judge;
use crate::tool::refusals;
use crate::tool::run::image_view::{ImageView, Vent};
use crate::tool::run::order::Order;
use crate::tool::run::runner::{Answer, Ending};
use crate::tool::run::shares;
use std::collections::BTreeMap;
use std::fmt::Write;

/// What the columns of the bays hold.
pub const SIGNS: &str = "\
settings, up to 1000 in tenths of a percent; n5: holds name 5, still awaited; 300*: holds a name, which is 300
";

/// A vent that is wide open, in tenths of a percent.
pub const WIDE_OPEN: u16 = 1_000;

/// The columns of the turns; that of the answers has its width.
#[derive(Debug, Clone, Copy)]
pub struct Columns(usize);

/// The longest answers: a rule, and a wait, which takes a turn only where nobody is passed over.
const RULE_WIDTH: usize = "rule 3 FUTURE.DEREF".len() + 2;
const WAIT_WIDTH: usize = "waits for name 255, a thread of bay 15".len();

impl Columns {
    pub fn of(order: &Order) -> Columns {
        Columns(if order.passes_over() {
            RULE_WIDTH
        } else {
            WAIT_WIDTH
        })
    }

    fn line(self, [turn, thread, bay, answer]: [&str; 4], vents: &[String]) -> String {
        let width = self.0;
        let mut line = format!("{turn:>6}  {thread:>6}  {bay:>6}  {answer:<width$}");
        for vent in vents {
            let _ = write!(line, " {vent:>6}");
        }
        line + "\n"
    }

    /// The line above the turns.
    pub fn heading(self, bays: usize) -> String {
        let vents: Vec<String> = (0..bays).map(|bay| format!("bay {bay}")).collect();
        self.line(["turn", "thread", "of bay", "answer"], &vents)
    }

    /// The line of the load, turn 0.
    pub fn loaded(self, vents: &[Vent]) -> String {
        self.line(["0", "-", "-", "loaded"], &short(vents))
    }

    /// The line of a turn: its number, the thread and what it answered, and the image after it.
    pub fn turn(
        self,
        (turn, thread, answer): (u64, u64, Answer),
        view: ImageView,
        bays: usize,
    ) -> String {
        let bay = view
            .owner(thread)
            .map_or("-".to_owned(), |bay| bay.to_string());
        let first = [
            &turn.to_string(),
            &thread.to_string(),
            &bay,
            &told(answer, view),
        ];
        self.line(first.map(String::as_str), &short(&view.vents(bays)))
    }
}

/// The settings as the columns have them.
fn short(vents: &[Vent]) -> Vec<String> {
    let text = |vent: &Vent| match vent {
        Vent::Open(value) => value.to_string(),
        Vent::Named(_, Some(value)) => format!("{value}*"),
        Vent::Named(name, None) => format!("n{name}"),
        Vent::Unknown => "?".to_owned(),
    };
    vents.iter().map(text).collect()
}

/// An answer in words, in an image that has the awaited name.
fn told(answer: Answer, view: ImageView) -> String {
    match answer {
        Answer::Rule(rule) => format!("rule {rule} {}", refusals::rule(rule)),
        Answer::Done => "done".to_owned(),
        Answer::Waiting(name) => format!("waits for {}", view.whose(name)),
        Answer::Refused(number) => format!("refused {number}"),
    }
}

/// Why the run ended.
pub fn ending(turns: u64, ending: Ending) -> String {
    let why = match ending {
        Ending::Turns => "all turns are taken",
        Ending::Idle => "no thread can go, each is done or waits",
        Ending::Room => "no thread can go, and one lacks room",
        Ending::NoThreadOfTheOrder => "no thread of the order can go",
    };
    format!("Stopped after {}: {why}.\n", counted(turns))
}

/// How each thread stands, by the bays that they belong to.
pub fn standings(profile: Profile, threads: &[(u64, Answer)], view: ImageView) -> String {
    let mut bays: BTreeMap<Option<u8>, Vec<(u64, Answer)>> = BTreeMap::new();
    for (thread, answer) in threads {
        let own = bays.entry(view.owner(*thread)).or_default();
        own.push((*thread, *answer));
    }
    let mut text = String::new();
    for (bay, threads) in bays {
        let mut label = bay.map_or(String::new(), |bay| format!("bay {bay}"));
        for line in standing(profile, &threads, view) {
            let _ = writeln!(text, "  {label:<6}  {line}");
            label.clear();
        }
    }
    text
}

/// The threads of a bay: those that can go, each that waits or is refused, those that are done.
fn standing(profile: Profile, threads: &[(u64, Answer)], view: ImageView) -> Vec<String> {
    let all = |these: fn(Answer) -> bool, one: &str, many: &str| {
        let found = threads.iter().filter(|(_, answer)| these(*answer));
        let found: Vec<String> = found.map(|(thread, _)| thread.to_string()).collect();
        match found.as_slice() {
            [] => None,
            [thread] => Some(format!("thread {thread} {one}")),
            _ => Some(format!("threads {} {many}", found.join(", "))),
        }
    };
    let waiting = threads.iter().filter_map(|(thread, answer)| match answer {
        Answer::Waiting(_) => Some(format!("thread {thread} {}", told(*answer, view))),
        _ => None,
    });
    let refused = threads.iter().filter_map(|(thread, answer)| match answer {
        Answer::Refused(number) => {
            let words = refused(profile, *number, (*thread, view));
            Some(format!("thread {thread} is refused {number}: {words}"))
        }
        _ => None,
    });
    let can_go = all(
        |answer| matches!(answer, Answer::Rule(_)),
        "can go",
        "can go",
    );
    let done = all(|answer| answer == Answer::Done, "is done", "are done");
    let lines = can_go.into_iter().chain(waiting).chain(refused);
    lines.chain(done).collect()
}

/// The cause of a refused step; of a lack of room in the separate profile, which bay is above its share.
fn refused(profile: Profile, number: u32, (thread, view): (u64, ImageView)) -> String {
    let words = refusals::in_words_of(profile, number);
    match (profile, number) {
        (Profile::Separate, causes::ROOM) => {
            shares::lack_of_room(view, thread).unwrap_or_else(|| words.to_owned())
        }
        _ => words.to_owned(),
    }
}

fn counted(turns: u64) -> String {
    match turns {
        1 => "1 turn".to_owned(),
        _ => format!("{turns} turns"),
    }
}

/// The runner's own answer, which is what the turns came to.
pub fn one_call(answer: &RanAnswer) -> String {
    let (turns, name) = (counted(u64::from(answer.turns)), judge::NAME);
    let (stop, buffer, length) = (answer.stop, answer.buffer, answer.length);
    format!(
        "One call of the runner, by {name}, comes to the same: stop {stop}, {turns}, buffer {buffer}, length {length}.\n"
    )
}

/// The vents at the end, a line for each bay.
pub fn vents(view: ImageView, bays: usize) -> String {
    let mut text = "bay  vent\n".to_owned();
    for (bay, vent) in view.vents(bays).into_iter().enumerate() {
        let _ = writeln!(text, "{bay:>3}  {}", vent_in_words(vent, view));
    }
    text
}

pub fn vent_in_words(vent: Vent, view: ImageView) -> String {
    match vent {
        Vent::Open(value) => setting(value),
        Vent::Named(name, Some(value)) => {
            let whose = view.whose(u32::from(name));
            format!("{} (held under {whose})", setting(value))
        }
        Vent::Named(name, None) => format!("awaits {}", view.whose(u32::from(name))),
        Vent::Unknown => "unknown".to_owned(),
    }
}

/// A setting: 250 is 25.0 %; what no vent can be is the plain number.
pub fn setting(value: u16) -> String {
    if value > WIDE_OPEN {
        return value.to_string();
    }
    format!("{}.{} %", value / 10, value % 10)
}
