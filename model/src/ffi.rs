//! The C interface of the proved library, as `include/fikarehu.h` declares it, and safe calls.

use crate::answers::{Implementation, LoadedAnswer, RanAnswer, SteppedAnswer, VerdictAnswer};

extern "C" {
    fn fikarehu_check(recipe: *const u8, recipe_len: usize) -> VerdictAnswer;
    fn fikarehu_load(
        recipe: *const u8,
        recipe_len: usize,
        out: *mut u8,
        out_len: usize,
    ) -> LoadedAnswer;
    fn fikarehu_step(
        image: *const u8,
        image_len: usize,
        thread: u64,
        out: *mut u8,
        out_len: usize,
    ) -> SteppedAnswer;
    fn fikarehu_run(
        recipe: *const u8,
        recipe_len: usize,
        turns: u16,
        first: *mut u8,
        first_len: usize,
        second: *mut u8,
        second_len: usize,
    ) -> RanAnswer;
    fn fikarehu_load_separate(
        recipe: *const u8,
        recipe_len: usize,
        out: *mut u8,
        out_len: usize,
    ) -> LoadedAnswer;
    fn fikarehu_step_separate(
        image: *const u8,
        image_len: usize,
        thread: u64,
        out: *mut u8,
        out_len: usize,
    ) -> SteppedAnswer;
}

/// The verdict on a recipe.
pub fn check(recipe: &[u8]) -> VerdictAnswer {
    // SAFETY: the pointer and the length are those of a slice that is lent meanwhile.
    unsafe { fikarehu_check(recipe.as_ptr(), recipe.len()) }
}

/// The starting image of a recipe.
pub fn load(recipe: &[u8], out: &mut [u8]) -> LoadedAnswer {
    // SAFETY: two slices that are lent meanwhile; the second is lent alone, so they do not overlap.
    unsafe { fikarehu_load(recipe.as_ptr(), recipe.len(), out.as_mut_ptr(), out.len()) }
}

/// A step of one thread.
pub fn step(image: &[u8], thread: u64, out: &mut [u8]) -> SteppedAnswer {
    // SAFETY: two slices that are lent meanwhile; the second is lent alone, so they do not overlap.
    unsafe {
        fikarehu_step(
            image.as_ptr(),
            image.len(),
            thread,
            out.as_mut_ptr(),
            out.len(),
        )
    }
}

/// A recipe run for so many turns.
pub fn run(recipe: &[u8], turns: u16, first: &mut [u8], second: &mut [u8]) -> RanAnswer {
    // SAFETY: three slices that are lent meanwhile; the buffers are each lent alone, so nothing overlaps.
    unsafe {
        fikarehu_run(
            recipe.as_ptr(),
            recipe.len(),
            turns,
            first.as_mut_ptr(),
            first.len(),
            second.as_mut_ptr(),
            second.len(),
        )
    }
}

/// The starting image of a recipe, in the separate profile.
pub fn load_separate(recipe: &[u8], out: &mut [u8]) -> LoadedAnswer {
    // SAFETY: two slices that are lent meanwhile; the second is lent alone, so they do not overlap.
    unsafe { fikarehu_load_separate(recipe.as_ptr(), recipe.len(), out.as_mut_ptr(), out.len()) }
}

/// A step of one thread, in the separate profile.
pub fn step_separate(image: &[u8], thread: u64, out: &mut [u8]) -> SteppedAnswer {
    // SAFETY: two slices that are lent meanwhile; the second is lent alone, so they do not overlap.
    unsafe {
        fikarehu_step_separate(
            image.as_ptr(),
            image.len(),
            thread,
            out.as_mut_ptr(),
            out.len(),
        )
    }
}

/// The proved library.
pub struct Library;

impl Implementation for Library {
    fn check(&self, recipe: &[u8]) -> VerdictAnswer {
        check(recipe)
    }

    fn load(&self, recipe: &[u8], out: &mut [u8]) -> Option<LoadedAnswer> {
        Some(load(recipe, out))
    }

    fn step(&self, image: &[u8], thread: u64, out: &mut [u8]) -> Option<SteppedAnswer> {
        Some(step(image, thread, out))
    }

    fn run(
        &self,
        recipe: &[u8],
        turns: u16,
        first: &mut [u8],
        second: &mut [u8],
    ) -> Option<RanAnswer> {
        Some(run(recipe, turns, first, second))
    }

    fn load_separate(&self, recipe: &[u8], out: &mut [u8]) -> Option<LoadedAnswer> {
        Some(load_separate(recipe, out))
    }

    fn step_separate(&self, image: &[u8], thread: u64, out: &mut [u8]) -> Option<SteppedAnswer> {
        Some(step_separate(image, thread, out))
    }
}
