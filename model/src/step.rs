//! Document 01, "A step": 12, 13, 14, then what the thread does, with 15 where there is no room; in the
//! separate profile of document 02, T-09, room is each bay's share.

use crate::causes;
use crate::config::{Component, Configuration};
use crate::image::{read_image, write_image};
use crate::limits;
use crate::profile::Profile;
use crate::reduce::{move_of, Move};

/// The answer of a step.
#[derive(Debug, Clone, Copy, PartialEq, Eq)]
pub enum Outcome {
    /// The rule and the new image's length.
    Rule(u8, usize),
    Done,
    /// The awaited name.
    Waiting(u8),
    Refused(u32),
}

/// What a step does, before anything is written.
#[derive(Debug, Clone, PartialEq, Eq)]
pub enum Stepped {
    Rule(u8, Configuration),
    Done,
    Waiting(u8),
    Refused(u32),
}

/// A step of that thread with an out buffer of that length, in the common profile.
pub fn stepped(image: &[u8], thread: u64, out_length: usize) -> Stepped {
    stepped_in(Profile::Common, image, thread, out_length)
}

/// A step of that thread with an out buffer of that length.
pub fn stepped_in(profile: Profile, image: &[u8], thread: u64, out_length: usize) -> Stepped {
    if out_length < limits::MAX_IMAGE {
        return Stepped::Refused(causes::BUFFER);
    }
    let configuration = match read_image(image) {
        Some(configuration) => configuration,
        None => return Stepped::Refused(causes::IMAGE),
    };
    step_configuration_in(profile, &configuration, thread)
}

/// A step on a configuration that keeps the rules and limits of an image, in the common profile.
pub fn step_configuration(configuration: &Configuration, thread: u64) -> Stepped {
    step_configuration_in(Profile::Common, configuration, thread)
}

/// A step on a configuration that keeps the rules and limits of an image.
pub fn step_configuration_in(
    profile: Profile,
    configuration: &Configuration,
    thread: u64,
) -> Stepped {
    let place = usize::try_from(thread).ok();
    let component = place.and_then(|place| configuration.components.get(place));
    let place = match (place, component) {
        (Some(place), Some(Component::Thread(_))) => place,
        _ => return Stepped::Refused(causes::NO_THREAD),
    };
    match move_of(configuration, place) {
        Move::Rule(_, next) if !profile.has_room(configuration, &next) => {
            Stepped::Refused(causes::ROOM)
        }
        Move::Rule(rule, next) => Stepped::Rule(rule, next),
        Move::Done => Stepped::Done,
        Move::Waiting(name) => Stepped::Waiting(name),
        Move::UsedHandle => Stepped::Refused(causes::USED_HANDLE),
        Move::WrongValue => Stepped::Refused(causes::WRONG_KIND),
    }
}

/// A step in the common profile.
pub fn step(image: &[u8], thread: u64, out: &mut [u8]) -> Outcome {
    step_in(Profile::Common, image, thread, out)
}

/// "After a load or step the out buffer holds the image in its first bytes and is unchanged
/// beyond." Nothing is written on done, waiting or a refusal.
pub fn step_in(profile: Profile, image: &[u8], thread: u64, out: &mut [u8]) -> Outcome {
    match stepped_in(profile, image, thread, out.len()) {
        Stepped::Rule(rule, next) => {
            let written = write_image(&next);
            out[..written.len()].copy_from_slice(&written);
            Outcome::Rule(rule, written.len())
        }
        Stepped::Done => Outcome::Done,
        Stepped::Waiting(name) => Outcome::Waiting(name),
        Stepped::Refused(number) => Outcome::Refused(number),
    }
}
