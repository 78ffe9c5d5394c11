//! What ends a command early.

use std::io;

#[derive(Debug)]
pub enum Problem {
    /// A message for standard error, and exit status 1.
    Message(String),
    /// The same for words that no command takes, and exit status 2.
    Usage(String),
    /// Standard output takes no more; a closed pipe is no fault.
    Output(io::Error),
}

pub type Outcome = Result<(), Problem>;

impl From<io::Error> for Problem {
    fn from(error: io::Error) -> Problem {
        Problem::Output(error)
    }
}

/// A problem with that message.
pub fn message(text: impl Into<String>) -> Problem {
    Problem::Message(text.into())
}
