//! The plain implementation compared with the model: `compare_plain --seed S --count N`.

use std::process::ExitCode;

fn main() -> ExitCode {
    model::command::compare("the plain implementation", model::answers::Plain)
}
