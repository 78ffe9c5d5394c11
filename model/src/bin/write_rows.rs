//! Writes the rows of `crates/drawn_cases` into a folder, the crate's `specs/`.

use model::command::on_deep_stack;
use std::path::PathBuf;
use std::process::ExitCode;

fn main() -> ExitCode {
    let folder = match std::env::args_os().nth(1).map(PathBuf::from) {
        Some(folder) => folder,
        None => {
            eprintln!("usage: write_rows FOLDER");
            return ExitCode::from(2);
        }
    };
    for file in on_deep_stack(model::rows::files) {
        let path = folder.join(format!("{}.antt", file.name));
        if let Err(error) = std::fs::write(&path, file.text) {
            eprintln!("{}: {error}", path.display());
            return ExitCode::FAILURE;
        }
    }
    ExitCode::SUCCESS
}
