//! The proved library compared with the model: `compare --seed S --count N`.

use std::process::ExitCode;

fn main() -> ExitCode {
    model::command::compare("the library", model::ffi::Library)
}
