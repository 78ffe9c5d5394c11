//! The tool `recipe`.

use std::process::ExitCode;

fn main() -> ExitCode {
    model::tool::main(std::env::args_os().skip(1).collect())
}
