//! The command-line tool `recipe`: shows, writes, runs, compares, and prints the draws of the test load.

pub mod arguments;
pub mod compare;
pub mod draws;
pub mod faults;
pub mod files;
pub mod help;
pub mod judge;
pub mod outline;
pub mod problem;
pub mod progress;
pub mod refusals;
pub mod run;
pub mod shared_library;
pub mod show;
pub mod svg;
pub mod terminal;
pub mod text;
pub mod version;
pub mod write;

use crate::command::on_deep_stack;
use problem::{Outcome, Problem};
use std::ffi::OsString;
use std::io::{self, BufWriter, Write};
use std::process::ExitCode;
use terminal::{is_terminal, STANDARD_OUTPUT};

/// The exit status for words that no command takes.
const WRONG_USAGE: u8 = 2;

/// The tool, with the words of its command line after its own name.
pub fn main(words: Vec<OsString>) -> ExitCode {
    std::panic::set_hook(Box::new(|fault| {
        complain(&format!("a fault of the tool itself: {fault}"));
        std::process::exit(1);
    }));
    match on_deep_stack(|| to_standard_output(words)) {
        Ok(()) => ExitCode::SUCCESS,
        Err(Problem::Message(text)) => {
            complain(&text);
            ExitCode::FAILURE
        }
        Err(Problem::Usage(text)) => {
            complain(&text);
            ExitCode::from(WRONG_USAGE)
        }
        Err(Problem::Output(error)) if error.kind() == io::ErrorKind::BrokenPipe => {
            ExitCode::SUCCESS
        }
        Err(Problem::Output(error)) => {
            complain(&format!("cannot write to standard output: {error}"));
            ExitCode::FAILURE
        }
    }
}

/// A message on standard error, if anyone takes it.
fn complain(text: &str) {
    let _ = writeln!(io::stderr(), "recipe: {text}");
}

/// What was written before a problem is still handed on.
fn to_standard_output(words: Vec<OsString>) -> Outcome {
    let stdout = io::stdout().lock();
    // a terminal gets each line at once
    let mut out: Box<dyn Write> = if is_terminal(STANDARD_OUTPUT) {
        Box::new(stdout)
    } else {
        Box::new(BufWriter::new(stdout))
    };
    let outcome = command(words, &mut out);
    out.flush()?;
    outcome
}

fn command(words: Vec<OsString>, out: &mut dyn Write) -> Outcome {
    let (first, rest) = match words.split_first() {
        Some(found) => found,
        None => return Err(help::usage("no command is given")),
    };
    if rest.iter().any(|word| word == "--help") {
        return help::command(std::slice::from_ref(first), out);
    }
    match first.to_str() {
        Some("show") => show::command(rest, out),
        Some("write") => write::command(rest, out),
        Some("run") => run::command(rest, out),
        Some("draws") => draws::command(rest, out),
        Some("compare") => compare::command(rest, out),
        Some("help" | "--help" | "-h") => help::command(rest, out),
        Some("--version") => version::command(out),
        _ => Err(help::usage(&format!(
            "there is no command {}",
            first.to_string_lossy()
        ))),
    }
}
