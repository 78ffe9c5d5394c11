//! Rows for the proved table `crates/drawn_cases`: drawn by the generator, answered by the model, and
//! written as antt files in which each row is computed again from the proved definitions.

pub mod antt;
pub mod checks;
pub mod compounds;
pub mod loads;
pub mod quota;
pub mod steps;

use crate::draw::Draw;

/// Every row comes from this seed.
const SEED: u64 = 2_006;
/// The byte that an out buffer is filled with before a call.
pub const FILLER: u8 = 0xAA;

/// A file of the crate: its name, and its text.
pub struct Written {
    pub name: String,
    pub text: String,
}

/// All files of the crate's `specs/`.
pub fn files() -> Vec<Written> {
    let mut draw = Draw::new(SEED);
    let mut files = vec![antt::shapes()];
    files.extend(checks::files(&mut draw));
    files.extend(loads::files(&mut draw));
    files.extend(steps::files(&mut draw));
    let root = antt::root(&files);
    files.push(root);
    files
}
