//! Document 02, T-04, "A house runner": a recipe is checked, loaded, and run for a number of turns
//! between two buffers.

use crate::causes;
use crate::config::Configuration;
use crate::image::{read_image, write_image};
use crate::limits;
use crate::load::{load, Loaded};
use crate::step::{step_configuration, Stepped};

/// The answer of the runner.
#[derive(Debug, Clone, Copy, PartialEq, Eq)]
pub enum Ran {
    /// Why it stopped, the turns taken, and the last image's buffer and length.
    Ended(Stop, u16, Buffer, usize),
    Refused(u32),
}

/// "It stops before k turns only when there is no such thread, and then says whether one lacked
/// room; after k turns it looks no further."
#[derive(Debug, Clone, Copy, PartialEq, Eq)]
pub enum Stop {
    /// After k turns: nothing is said of the threads.
    Turns,
    /// No thread that a rule moves.
    Idle,
    /// A rule moves some thread, and each such thread lacks room.
    Room,
}

#[derive(Debug, Clone, Copy, PartialEq, Eq)]
pub enum Buffer {
    First,
    Second,
}

/// What a look for the next thread finds.
#[derive(Debug, Clone, PartialEq, Eq)]
pub enum Look {
    /// A thread that a rule moves and that has room; the rule, and the configuration after it.
    Goes(usize, u8, Configuration),
    None(Stop),
    Refused(u32),
}

/// The numbers in the order of the look: "going round by number from the one after the last
/// stepped", that one itself at the end. "The first turn starts from the lowest number."
pub fn numbers_from(last: Option<usize>, names: usize) -> impl Iterator<Item = usize> {
    let first = last.map_or(0, |last| last + 1);
    (first..names).chain(0..first)
}

/// "A turn steps the first thread .. that a rule moves and that has room"; "lack of room only
/// passes a thread over".
pub fn look(now: &Configuration, last: Option<usize>) -> Look {
    let mut stop = Stop::Idle;
    for name in numbers_from(last, now.names()) {
        match step_configuration(now, name as u64) {
            Stepped::Rule(rule, next) => return Look::Goes(name, rule, next),
            Stepped::Done | Stepped::Waiting(_) | Stepped::Refused(causes::NO_THREAD) => {}
            Stepped::Refused(causes::ROOM) => stop = Stop::Room,
            Stepped::Refused(number) => return Look::Refused(number),
        }
    }
    Look::None(stop)
}

/// The runner. What the other buffer and the bytes beyond the last image hold is left free; here
/// they hold what was written there last.
pub fn run(file: &[u8], turns: u16, first: &mut [u8], second: &mut [u8]) -> Ran {
    // "12 first and for either buffer, whatever k"
    if first.len().min(second.len()) < limits::MAX_IMAGE {
        return Ran::Refused(causes::BUFFER);
    }
    // "The load goes to the first buffer and steps alternate"
    let mut length = match load(file, first) {
        Loaded::Accepted(_, length) => length,
        Loaded::Refused(number) => return Ran::Refused(number),
    };
    let (mut here, mut there) = (first, second);
    let mut last = None;
    for taken in 0..turns {
        let now = match read_image(&here[..length]) {
            Some(now) => now,
            None => return Ran::Refused(causes::IMAGE),
        };
        match look(&now, last) {
            Look::Goes(thread, _, next) => {
                let image = write_image(&next);
                there[..image.len()].copy_from_slice(&image);
                (length, last) = (image.len(), Some(thread));
                (here, there) = (there, here);
            }
            Look::None(stop) => return Ran::Ended(stop, taken, buffer_after(taken), length),
            Look::Refused(number) => return Ran::Refused(number),
        }
    }
    Ran::Ended(Stop::Turns, turns, buffer_after(turns), length)
}

/// The buffer of the image after that many turns.
fn buffer_after(turns: u16) -> Buffer {
    match turns % 2 {
        0 => Buffer::First,
        _ => Buffer::Second,
    }
}
