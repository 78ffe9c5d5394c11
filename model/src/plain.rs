//! The same answers by plain hand-written Rust on bytes, without allocation: what the proved
//! library is measured against. Checked equal to the model.

mod check;
mod image;
mod levels;
mod load;
mod place;
mod room;
mod run;
mod step;
mod term;
mod test_load;
mod walk;
mod write;

pub use check::{check, Answer};
pub use load::{load, load_separate};
pub use run::{run, Ran};
pub use step::{step, step_separate, Stepped};
pub use test_load::printed;
