//! The runner as a plain loop over the plain stepper.

use crate::causes;
use crate::kinds;
use crate::limits;
use crate::plain::load::load;
use crate::plain::step::{step, Stepped};

/// The answer of the runner; the last image lies in the second buffer after an odd number of turns.
#[derive(Debug, Clone, Copy, PartialEq, Eq)]
pub enum Ran {
    /// All turns were taken; the image's length.
    Turns(usize),
    /// No thread goes after so many turns, with an image of that length; whether one lacks room.
    Stopped(u16, usize, bool),
    Refused(u32),
}

/// Loads the file and takes so many turns, if threads go.
pub fn run(file: &[u8], turns: u16, first: &mut [u8], second: &mut [u8]) -> Ran {
    if first.len() < limits::MAX_IMAGE || second.len() < limits::MAX_IMAGE {
        return Ran::Refused(causes::BUFFER);
    }
    let (answer, mut length) = load(file, first);
    if answer.refusal != 0 {
        return Ran::Refused(answer.refusal);
    }
    let (mut image, mut other) = (first, second);
    let mut from = 0;
    for taken in 0..turns {
        match turn(&image[..length], from, other) {
            Turn::Goes(name, written) => {
                (from, length) = (name + 1, written);
                std::mem::swap(&mut image, &mut other);
            }
            Turn::None(lacks_room) => return Ran::Stopped(taken, length, lacks_room),
            Turn::Refused(number) => return Ran::Refused(number),
        }
    }
    Ran::Turns(length)
}

enum Turn {
    /// The thread that went, and the new image's length.
    Goes(usize, usize),
    /// Whether a thread lacks room.
    None(bool),
    Refused(u32),
}

/// Steps the first thread that goes, from that number on and then from the lowest.
fn turn(image: &[u8], from: usize, out: &mut [u8]) -> Turn {
    let names = usize::from(u16::from_le_bytes([image[0], image[1]]));
    let mut lacks_room = false;
    for name in (from..names).chain(0..from) {
        if image[limits::FIRST_HEAD + limits::HEAD_LENGTH * name] != kinds::THREAD {
            continue;
        }
        match step(image, name as u64, out) {
            Stepped::Rule(_, length) => return Turn::Goes(name, length),
            Stepped::Done | Stepped::Waiting(_) => {}
            Stepped::Refused(causes::ROOM) => lacks_room = true,
            Stepped::Refused(number) => return Turn::Refused(number),
        }
    }
    Turn::None(lacks_room)
}
