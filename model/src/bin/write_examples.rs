//! Writes the example recipes and their texts into a folder: `write_examples FOLDER`.

use std::path::PathBuf;
use std::process::ExitCode;

fn main() -> ExitCode {
    let folder = match std::env::args_os().nth(1).map(PathBuf::from) {
        Some(folder) => folder,
        None => {
            eprintln!("usage: write_examples FOLDER");
            return ExitCode::from(2);
        }
    };
    for example in model::examples::all() {
        let recipe = folder.join(format!("{}.recipe", example.name));
        let text = folder.join(format!("{}.md", example.name));
        let written = std::fs::write(recipe, example.file())
            .and_then(|()| std::fs::write(text, example.description()));
        if let Err(error) = written {
            eprintln!("{}: {error}", example.name);
            return ExitCode::FAILURE;
        }
    }
    ExitCode::SUCCESS
}
