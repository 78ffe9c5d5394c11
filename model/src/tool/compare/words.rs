//! Answers in words. Fields that an honest answer leaves at 0 are told where they are not.

use crate::answers::{
    LoadedAnswer, RanAnswer, SteppedAnswer, VerdictAnswer, DONE, IDLE, REFUSED, ROOM, RULE, TURNS,
    WAITING,
};
use crate::limits::MAX_BAYS;
use crate::profile::Profile;
use crate::tool::refusals;

pub trait InWords {
    fn in_words(&self) -> String;
}

impl InWords for VerdictAnswer {
    fn in_words(&self) -> String {
        verdict(self.refusal, self.bays, &self.types)
    }
}

impl InWords for LoadedAnswer {
    fn in_words(&self) -> String {
        let first = verdict(self.refusal, self.bays, &self.types);
        first + &image(self.length, self.refusal == 0)
    }
}

/// A step's answer, with the profile that it is of.
impl InWords for (Profile, SteppedAnswer) {
    fn in_words(&self) -> String {
        let (profile, answer) = self;
        let number = answer.number;
        let (first, has_number) = match answer.outcome {
            DONE => ("done".to_owned(), false),
            RULE => (format!("rule {number} {}", refusals::rule(number)), true),
            WAITING => (format!("waiting for name {number}"), true),
            REFUSED => (told(number, refusals::in_words_of(*profile, number)), true),
            other => (format!("outcome {other}, which there is not"), false),
        };
        let extra = if has_number || number == 0 {
            String::new()
        } else {
            format!(", number {number}")
        };
        first + &extra + &image(answer.length, answer.outcome == RULE)
    }
}

impl InWords for RanAnswer {
    fn in_words(&self) -> String {
        let stop = match self.stop {
            TURNS => "all turns are taken",
            IDLE => "idle",
            ROOM => "lack of room",
            _ => "a stop that there is not",
        };
        let run = format!(
            "stop {} ({stop}), turns {}, buffer {}, image of {} bytes",
            self.stop, self.turns, self.buffer, self.length
        );
        if self.refusal == 0 {
            return run;
        }
        if *self == RanAnswer::refused(self.refusal) {
            return refused(self.refusal);
        }
        format!("{}, {run}", refused(self.refusal))
    }
}

fn refused(number: u32) -> String {
    told(number, refusals::in_words(number))
}

fn told(number: u32, cause: &str) -> String {
    format!("refused {number} ({cause})")
}

fn verdict(refusal: u32, bays: u32, types: &[u8; MAX_BAYS]) -> String {
    if refusal == 0 {
        return format!("accepted, {}", bays_and_types(bays, types));
    }
    if bays == 0 && types.iter().all(|t| *t == 0) {
        return refused(refusal);
    }
    format!("{}, {}", refused(refusal), bays_and_types(bays, types))
}

/// The types of the bays; all sixteen, if more of them are told than there are bays.
fn bays_and_types(bays: u32, types: &[u8; MAX_BAYS]) -> String {
    let count = usize::try_from(bays).unwrap_or(MAX_BAYS).min(MAX_BAYS);
    let (own, beyond) = types.split_at(count);
    let told = if beyond.iter().all(|t| *t == 0) {
        own
    } else {
        &types[..]
    };
    if told.is_empty() {
        return format!("bays: {bays}");
    }
    let told: Vec<String> = told.iter().map(|t| format!("t{t}")).collect();
    format!("bays: {bays}, types: {}", told.join(" "))
}

/// The length, where there is an image or should be none.
fn image(length: u64, has_image: bool) -> String {
    if has_image || length != 0 {
        return format!(", image of {length} bytes");
    }
    String::new()
}
