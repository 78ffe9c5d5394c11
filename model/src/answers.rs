//! The answers of the C interface, laid out as `include/fikarehu.h` has them, and the model's
//! answers in that form.

use crate::limits::MAX_BAYS;
use crate::load::{self, Loaded};
use crate::plain;
use crate::profile::Profile;
use crate::runner::{self, Buffer, Ran, Stop};
use crate::step::{self, Outcome};
use crate::verdict::{self, Verdict};

/// `struct fikarehu_verdict`
#[repr(C)]
#[derive(Debug, Clone, Copy, PartialEq, Eq, Default)]
pub struct VerdictAnswer {
    pub refusal: u32,
    pub bays: u32,
    pub types: [u8; MAX_BAYS],
}

/// `struct fikarehu_loaded`
#[repr(C)]
#[derive(Debug, Clone, Copy, PartialEq, Eq, Default)]
pub struct LoadedAnswer {
    pub refusal: u32,
    pub bays: u32,
    pub types: [u8; MAX_BAYS],
    pub length: u64,
}

/// `struct fikarehu_stepped`
#[repr(C)]
#[derive(Debug, Clone, Copy, PartialEq, Eq, Default)]
pub struct SteppedAnswer {
    pub outcome: u32,
    pub number: u32,
    pub length: u64,
}

pub const DONE: u32 = 0;
pub const RULE: u32 = 1;
pub const WAITING: u32 = 2;
pub const REFUSED: u32 = 3;

/// `struct fikarehu_ran`
#[repr(C)]
#[derive(Debug, Clone, Copy, PartialEq, Eq, Default)]
pub struct RanAnswer {
    pub refusal: u32,
    pub stop: u32,
    pub turns: u32,
    pub buffer: u32,
    pub length: u64,
}

impl RanAnswer {
    pub fn refused(refusal: u32) -> RanAnswer {
        RanAnswer {
            refusal,
            ..RanAnswer::default()
        }
    }
}

/// Why a run stops.
pub const TURNS: u32 = 0;
pub const IDLE: u32 = 1;
pub const ROOM: u32 = 2;

/// The types of the bays, zeros beyond.
fn sixteen(types: &[u8]) -> [u8; MAX_BAYS] {
    let mut all = [0; MAX_BAYS];
    all[..types.len()].copy_from_slice(types);
    all
}

/// Something that checks, loads, steps and runs as the C interface does.
pub trait Implementation {
    fn check(&self, recipe: &[u8]) -> VerdictAnswer;
    /// `None` where a library has no loader.
    fn load(&self, recipe: &[u8], out: &mut [u8]) -> Option<LoadedAnswer>;
    /// `None` where a library has no stepper.
    fn step(&self, image: &[u8], thread: u64, out: &mut [u8]) -> Option<SteppedAnswer>;
    /// `None` where a library has no runner.
    fn run(
        &self,
        recipe: &[u8],
        turns: u16,
        first: &mut [u8],
        second: &mut [u8],
    ) -> Option<RanAnswer>;
    /// `None` where a library has no loader of the separate profile.
    fn load_separate(&self, _recipe: &[u8], _out: &mut [u8]) -> Option<LoadedAnswer> {
        None
    }
    /// `None` where a library has no stepper of the separate profile.
    fn step_separate(&self, _image: &[u8], _thread: u64, _out: &mut [u8]) -> Option<SteppedAnswer> {
        None
    }

    /// The loader of that profile.
    fn load_in(&self, profile: Profile, recipe: &[u8], out: &mut [u8]) -> Option<LoadedAnswer> {
        match profile {
            Profile::Common => self.load(recipe, out),
            Profile::Separate => self.load_separate(recipe, out),
        }
    }

    /// The stepper of that profile.
    fn step_in(
        &self,
        profile: Profile,
        image: &[u8],
        thread: u64,
        out: &mut [u8],
    ) -> Option<SteppedAnswer> {
        match profile {
            Profile::Common => self.step(image, thread, out),
            Profile::Separate => self.step_separate(image, thread, out),
        }
    }
}

impl From<Loaded> for LoadedAnswer {
    fn from(loaded: Loaded) -> LoadedAnswer {
        match loaded {
            Loaded::Refused(refusal) => LoadedAnswer {
                refusal,
                ..LoadedAnswer::default()
            },
            Loaded::Accepted(types, length) => LoadedAnswer {
                refusal: 0,
                bays: types.len() as u32,
                types: sixteen(&types),
                length: length as u64,
            },
        }
    }
}

impl From<Outcome> for SteppedAnswer {
    fn from(outcome: Outcome) -> SteppedAnswer {
        let (outcome, number, length) = match outcome {
            Outcome::Done => (DONE, 0, 0),
            Outcome::Rule(rule, length) => (RULE, u32::from(rule), length as u64),
            Outcome::Waiting(name) => (WAITING, u32::from(name), 0),
            Outcome::Refused(number) => (REFUSED, number, 0),
        };
        SteppedAnswer {
            outcome,
            number,
            length,
        }
    }
}

/// The model.
pub struct Model;

impl Implementation for Model {
    fn check(&self, recipe: &[u8]) -> VerdictAnswer {
        match verdict::verdict(recipe) {
            Verdict::Refused(refusal) => VerdictAnswer {
                refusal,
                ..VerdictAnswer::default()
            },
            Verdict::Accepted(types) => VerdictAnswer {
                refusal: 0,
                bays: types.len() as u32,
                types: sixteen(&types),
            },
        }
    }

    fn load(&self, recipe: &[u8], out: &mut [u8]) -> Option<LoadedAnswer> {
        Some(load::load(recipe, out).into())
    }

    fn step(&self, image: &[u8], thread: u64, out: &mut [u8]) -> Option<SteppedAnswer> {
        Some(step::step(image, thread, out).into())
    }

    fn load_separate(&self, recipe: &[u8], out: &mut [u8]) -> Option<LoadedAnswer> {
        Some(load::load_in(Profile::Separate, recipe, out).into())
    }

    fn step_separate(&self, image: &[u8], thread: u64, out: &mut [u8]) -> Option<SteppedAnswer> {
        Some(step::step_in(Profile::Separate, image, thread, out).into())
    }

    fn run(
        &self,
        recipe: &[u8],
        turns: u16,
        first: &mut [u8],
        second: &mut [u8],
    ) -> Option<RanAnswer> {
        Some(match runner::run(recipe, turns, first, second) {
            Ran::Refused(refusal) => RanAnswer::refused(refusal),
            Ran::Ended(stop, turns, buffer, length) => RanAnswer {
                refusal: 0,
                stop: match stop {
                    Stop::Turns => TURNS,
                    Stop::Idle => IDLE,
                    Stop::Room => ROOM,
                },
                turns: u32::from(turns),
                buffer: match buffer {
                    Buffer::First => 0,
                    Buffer::Second => 1,
                },
                length: length as u64,
            },
        })
    }
}

impl From<(plain::Answer, usize)> for LoadedAnswer {
    fn from((answer, length): (plain::Answer, usize)) -> LoadedAnswer {
        LoadedAnswer {
            refusal: answer.refusal,
            bays: answer.bays,
            types: answer.types,
            length: length as u64,
        }
    }
}

impl From<plain::Stepped> for SteppedAnswer {
    fn from(stepped: plain::Stepped) -> SteppedAnswer {
        let (outcome, number, length) = match stepped {
            plain::Stepped::Done => (DONE, 0, 0),
            plain::Stepped::Rule(rule, length) => (RULE, u32::from(rule), length as u64),
            plain::Stepped::Waiting(name) => (WAITING, u32::from(name), 0),
            plain::Stepped::Refused(number) => (REFUSED, number, 0),
        };
        SteppedAnswer {
            outcome,
            number,
            length,
        }
    }
}

/// The plain implementation.
pub struct Plain;

impl Implementation for Plain {
    fn check(&self, recipe: &[u8]) -> VerdictAnswer {
        let answer = plain::check(recipe);
        VerdictAnswer {
            refusal: answer.refusal,
            bays: answer.bays,
            types: answer.types,
        }
    }

    fn load(&self, recipe: &[u8], out: &mut [u8]) -> Option<LoadedAnswer> {
        Some(plain::load(recipe, out).into())
    }

    fn step(&self, image: &[u8], thread: u64, out: &mut [u8]) -> Option<SteppedAnswer> {
        Some(plain::step(image, thread, out).into())
    }

    fn load_separate(&self, recipe: &[u8], out: &mut [u8]) -> Option<LoadedAnswer> {
        Some(plain::load_separate(recipe, out).into())
    }

    fn step_separate(&self, image: &[u8], thread: u64, out: &mut [u8]) -> Option<SteppedAnswer> {
        Some(plain::step_separate(image, thread, out).into())
    }

    fn run(
        &self,
        recipe: &[u8],
        turns: u16,
        first: &mut [u8],
        second: &mut [u8],
    ) -> Option<RanAnswer> {
        let (stop, taken, length) = match plain::run(recipe, turns, first, second) {
            plain::Ran::Refused(refusal) => return Some(RanAnswer::refused(refusal)),
            plain::Ran::Turns(length) => (TURNS, turns, length),
            plain::Ran::Stopped(taken, length, false) => (IDLE, taken, length),
            plain::Ran::Stopped(taken, length, true) => (ROOM, taken, length),
        };
        Some(RanAnswer {
            refusal: 0,
            stop,
            turns: u32::from(taken),
            buffer: u32::from(taken) % 2,
            length: length as u64,
        })
    }
}
