//! The tool as a user calls it, and folders of its own for what it writes.
#![allow(dead_code)]

use std::path::{Path, PathBuf};
use std::process::{Command, Output, Stdio};
use std::sync::atomic::{AtomicUsize, Ordering};

pub fn repository() -> PathBuf {
    Path::new(env!("CARGO_MANIFEST_DIR")).join("..")
}

/// The tool with these words, called in the repository's folder.
pub fn recipe(words: &[&str]) -> Output {
    let mut command = Command::new(env!("CARGO_BIN_EXE_recipe"));
    command.args(words).current_dir(repository());
    command
        .stdin(Stdio::null())
        .output()
        .expect("the tool runs")
}

pub fn standard_output(output: &Output) -> String {
    String::from_utf8_lossy(&output.stdout).into_owned()
}

pub fn standard_error(output: &Output) -> String {
    String::from_utf8_lossy(&output.stderr).into_owned()
}

/// Refused with exit status 1, nothing but a message; its text.
pub fn complaint(words: &[&str]) -> String {
    ended_with(1, words)
}

/// The same for words that no command takes: exit status 2.
pub fn wrong_usage(words: &[&str]) -> String {
    ended_with(2, words)
}

fn ended_with(status: i32, words: &[&str]) -> String {
    let output = recipe(words);
    let text = standard_error(&output);
    assert_eq!(output.status.code(), Some(status), "{words:?}: {text}");
    assert!(text.starts_with("recipe: "), "{words:?}: {text}");
    assert!(!text.contains("panicked"), "{words:?}: {text}");
    text
}

/// A folder that is taken away at the end of the test.
pub struct Folder(pub PathBuf);

impl Folder {
    pub fn new() -> Folder {
        static NEXT: AtomicUsize = AtomicUsize::new(0);
        let number = NEXT.fetch_add(1, Ordering::Relaxed);
        let name = format!("recipe-test-{}-{number}", std::process::id());
        let path = std::env::temp_dir().join(name);
        std::fs::create_dir_all(&path).expect("a folder for the test");
        Folder(path)
    }

    pub fn path(&self, name: &str) -> String {
        self.0.join(name).to_string_lossy().into_owned()
    }

    /// A file in the folder; its path.
    pub fn file(&self, name: &str, bytes: impl AsRef<[u8]>) -> String {
        let path = self.path(name);
        std::fs::write(&path, bytes).expect("a file for the test");
        path
    }
}

impl Drop for Folder {
    fn drop(&mut self) {
        let _ = std::fs::remove_dir_all(&self.0);
    }
}
