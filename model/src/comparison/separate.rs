//! What the separate profile is compared on besides: recipes and images of its own; and its counts.

use crate::answers::{Implementation, Model, SteppedAnswer, DONE, REFUSED, RULE, WAITING};
use crate::causes;
use crate::comparison::{listed, Comparison, Difference};
use crate::draw::Draw;
use crate::generate::{images, separate, shares};
use crate::limits;
use crate::profile::{Profile, PROFILES};
use std::fmt;

/// How often each answer of the separate profile came.
#[derive(Debug, Clone, Default, PartialEq, Eq)]
pub struct SeparateCounts {
    pub loads: [u64; 22],
    pub rules: [u64; 10],
    pub done: u64,
    pub waiting: u64,
    pub step_refusals: [u64; 18],
    /// Of the refusals 15, those where the common profile has room.
    pub over_share: u64,
}

impl SeparateCounts {
    /// The answer to a step of that thread.
    pub fn note_step(&mut self, image: &[u8], thread: u64, answer: &SteppedAnswer) {
        let number = answer.number as usize;
        match answer.outcome {
            DONE => self.done += 1,
            RULE => self.rules[number.min(9)] += 1,
            WAITING => self.waiting += 1,
            _ => self.step_refusals[number.min(17)] += 1,
        }
        if (answer.outcome, answer.number) == (REFUSED, causes::ROOM) {
            let mut out = vec![0; limits::MAX_IMAGE];
            let common = Model.step(image, thread, &mut out).unwrap_or_default();
            self.over_share += u64::from(common.outcome == RULE);
        }
    }
}

impl fmt::Display for SeparateCounts {
    fn fmt(&self, f: &mut fmt::Formatter<'_>) -> fmt::Result {
        let refusals = listed(&self.step_refusals, "refused");
        writeln!(f, "separate load: {}", listed(&self.loads, "verdict"))?;
        writeln!(f, "separate step: {}", listed(&self.rules, "rule"))?;
        writeln!(f, "separate step: {refusals}")?;
        write!(
            f,
            "separate step: done: {}, waiting: {}, 15 where the common step goes: {}",
            self.done, self.waiting, self.over_share
        )
    }
}

impl<I: Implementation> Comparison<'_, I> {
    /// A recipe, loaded in either profile and run in this one where it is accepted; and an image about
    /// the shares, stepped in either.
    pub fn compare_separate(&mut self, draw: &mut Draw) -> Result<(), Difference> {
        let file = separate::file(draw);
        self.compare_check(&file)?;
        for profile in PROFILES {
            self.compare_load(profile, draw, &file)?;
        }
        self.compare_run(Profile::Separate, draw, &file)?;
        let (image, mover) = shares::image(draw);
        let threads = [mover, images::thread_number(draw, &image)];
        for thread in threads {
            for profile in PROFILES {
                self.compare_step(profile, draw, &image, thread)?;
            }
        }
        Ok(())
    }
}
