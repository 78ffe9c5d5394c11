//! Curves: how the time of a call grows with its input, for the library and for the plain implementation in one run.

pub mod inputs;
pub mod picture;
pub mod text;

use crate::answers::{Implementation, Plain};
use crate::limits;
use crate::timing::{fastest, opaque, Work};
use std::process::ExitCode;
use std::time::Duration;

/// How long each measurement takes at least, and how often.
const LEAST: Duration = Duration::from_millis(8);
const ROUNDS: usize = 7;

/// A call of an implementation on an input, with an out buffer.
pub type Call = fn(&dyn Implementation, &[u8], &mut [u8]);

/// One curve: what grows, and the inputs by size.
pub struct Curve {
    pub title: String,
    pub axis: &'static str,
    pub sizes: Vec<usize>,
    pub call: Call,
    pub input: Box<dyn Fn(usize) -> Vec<u8>>,
}

/// What the calls on one input take, in µs.
#[derive(Debug, Clone, Copy, PartialEq)]
pub struct Point {
    pub size: usize,
    pub library: f64,
    pub plain: f64,
}

/// A step of thread 0.
pub fn step(implementation: &dyn Implementation, image: &[u8], out: &mut [u8]) {
    opaque(implementation.step(opaque(image), 0, out));
}

impl Curve {
    /// Measures each size, and prints the numbers as they come.
    pub fn measure(&self, library: &dyn Implementation) -> Vec<Point> {
        println!("{}", text::heading(self));
        let shown = |&size: &usize| {
            let point = self.point(library, size);
            println!("{}", text::row(&point));
            point
        };
        self.sizes.iter().map(shown).collect()
    }

    fn point(&self, library: &dyn Implementation, size: usize) -> Point {
        let input = (self.input)(size);
        let all: [&dyn Implementation; 2] = [library, &Plain];
        let mut works = all.map(|one| self.work(one, &input));
        let times = fastest(ROUNDS, LEAST, &mut works);
        Point {
            size,
            library: times[0] / 1e3,
            plain: times[1] / 1e3,
        }
    }

    fn work<'a>(&'a self, one: &'a dyn Implementation, input: &'a [u8]) -> Work<'a> {
        let mut out = vec![0; limits::MAX_IMAGE];
        Box::new(move || {
            (self.call)(one, input, &mut out);
            1
        })
    }
}

/// Writes a picture to a file.
pub fn save(path: &str, picture: &str) -> Result<(), String> {
    std::fs::write(path, picture).map_err(|error| format!("{path}: {error}"))
}

/// The exit status of a program; what went wrong goes to standard error.
pub fn finish(result: Result<(), String>) -> ExitCode {
    match result {
        Ok(()) => ExitCode::SUCCESS,
        Err(message) => {
            eprintln!("{message}");
            ExitCode::FAILURE
        }
    }
}
