//! Implementations that are wrong in one thing, put together from the model's.
#![allow(dead_code)]

use model::answers::{
    Implementation, LoadedAnswer, Model, RanAnswer, SteppedAnswer, VerdictAnswer, REFUSED,
};
use model::causes;
use model::command::on_deep_stack;
use model::comparison::Comparison;

pub type Check = fn(&[u8]) -> VerdictAnswer;
pub type Load = fn(&[u8], &mut [u8]) -> LoadedAnswer;
pub type Step = fn(&[u8], u64, &mut [u8]) -> SteppedAnswer;
pub type Run = fn(&[u8], u16, &mut [u8], &mut [u8]) -> RanAnswer;

/// An implementation put together from functions.
pub struct Impostor {
    pub check: Check,
    pub load: Load,
    pub step: Step,
    pub run: Run,
    pub load_separate: Load,
    pub step_separate: Step,
}

impl Implementation for Impostor {
    fn check(&self, recipe: &[u8]) -> VerdictAnswer {
        (self.check)(recipe)
    }

    fn load(&self, recipe: &[u8], out: &mut [u8]) -> Option<LoadedAnswer> {
        Some((self.load)(recipe, out))
    }

    fn step(&self, image: &[u8], thread: u64, out: &mut [u8]) -> Option<SteppedAnswer> {
        Some((self.step)(image, thread, out))
    }

    fn run(
        &self,
        recipe: &[u8],
        turns: u16,
        first: &mut [u8],
        second: &mut [u8],
    ) -> Option<RanAnswer> {
        Some((self.run)(recipe, turns, first, second))
    }

    fn load_separate(&self, recipe: &[u8], out: &mut [u8]) -> Option<LoadedAnswer> {
        Some((self.load_separate)(recipe, out))
    }

    fn step_separate(&self, image: &[u8], thread: u64, out: &mut [u8]) -> Option<SteppedAnswer> {
        Some((self.step_separate)(image, thread, out))
    }
}

pub fn check(recipe: &[u8]) -> VerdictAnswer {
    Model.check(recipe)
}

pub fn load(recipe: &[u8], out: &mut [u8]) -> LoadedAnswer {
    Model.load(recipe, out).unwrap_or_default()
}

pub fn step(image: &[u8], thread: u64, out: &mut [u8]) -> SteppedAnswer {
    Model.step(image, thread, out).unwrap_or_default()
}

pub fn run(recipe: &[u8], turns: u16, first: &mut [u8], second: &mut [u8]) -> RanAnswer {
    let answer = Model.run(recipe, turns, first, second);
    answer.unwrap_or_default()
}

pub fn load_separate(recipe: &[u8], out: &mut [u8]) -> LoadedAnswer {
    Model.load_separate(recipe, out).unwrap_or_default()
}

pub fn step_separate(image: &[u8], thread: u64, out: &mut [u8]) -> SteppedAnswer {
    let answer = Model.step_separate(image, thread, out);
    answer.unwrap_or_default()
}

/// "image breaks a rule or limit"
pub const BROKEN: SteppedAnswer = SteppedAnswer {
    outcome: REFUSED,
    number: causes::IMAGE,
    length: 0,
};

pub const HONEST: Impostor = Impostor {
    check,
    load,
    step,
    run,
    load_separate,
    step_separate,
};

/// Honest but for one call.
pub fn with_check(check: Check) -> Impostor {
    Impostor { check, ..HONEST }
}

pub fn with_load(load: Load) -> Impostor {
    Impostor { load, ..HONEST }
}

pub fn with_step(step: Step) -> Impostor {
    Impostor { step, ..HONEST }
}

pub fn with_run(run: Run) -> Impostor {
    Impostor { run, ..HONEST }
}

pub fn with_load_separate(load_separate: Load) -> Impostor {
    Impostor {
        load_separate,
        ..HONEST
    }
}

pub fn with_step_separate(step_separate: Step) -> Impostor {
    Impostor {
        step_separate,
        ..HONEST
    }
}

pub fn is_found(impostor: &Impostor) -> bool {
    is_found_among(impostor, 300)
}

/// Whether a comparison of that many recipes finds it.
pub fn is_found_among(impostor: &Impostor, count: u64) -> bool {
    on_deep_stack(|| {
        let mut comparison = Comparison::new(impostor);
        comparison.compare(9, count).is_err()
    })
}
