//! Which tool this is, and whether the proved library is built in.

use crate::tool::problem::Outcome;
use std::io::Write;

/// Whether the proved library is built in.
pub const WITH: &str = if cfg!(feature = "library") {
    "with the proved library"
} else {
    "without the proved library: the model checks and steps (build with --features library)"
};

pub fn command(out: &mut dyn Write) -> Outcome {
    writeln!(out, "recipe {}, {WITH}", env!("CARGO_PKG_VERSION"))?;
    Ok(())
}
