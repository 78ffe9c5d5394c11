//! How far a long command has come, on standard error: if that is a terminal, or if it was asked.

use super::terminal::{is_terminal, STANDARD_ERROR, STANDARD_OUTPUT};
use std::io::{self, Write};
use std::time::{Duration, Instant};

const EVERY: Duration = Duration::from_millis(500);

pub struct Progress {
    asked: bool,
    on_terminal: bool,
    last: Instant,
    wrote: bool,
}

impl Progress {
    pub fn new(asked: bool) -> Progress {
        Progress {
            asked,
            on_terminal: is_terminal(STANDARD_ERROR),
            last: Instant::now(),
            wrote: false,
        }
    }

    /// For a command that prints a line for each thing it does: these are enough on a terminal.
    pub fn beside_lines(asked: bool) -> Progress {
        let mut progress = Progress::new(asked);
        progress.on_terminal &= !is_terminal(STANDARD_OUTPUT);
        progress
    }

    /// Says how far it is, twice a second at most.
    pub fn say(&mut self, text: impl Fn() -> String) {
        let shown = self.asked || self.on_terminal;
        if shown && self.last.elapsed() >= EVERY {
            self.last = Instant::now();
            self.write(&text());
        }
    }

    fn write(&mut self, text: &str) {
        self.wrote = true;
        let (before, after) = if self.on_terminal {
            ("\r\x1b[K", "")
        } else {
            ("", "\n")
        };
        let _ = write!(io::stderr(), "{before}{text}{after}");
    }

    /// Clears the line on a terminal; elsewhere says how far it came, if that was asked.
    pub fn end(&mut self, text: &str) {
        if self.on_terminal && self.wrote {
            let _ = write!(io::stderr(), "\r\x1b[K");
        } else if self.asked && !self.on_terminal {
            self.write(text);
        }
    }
}
