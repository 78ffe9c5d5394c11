//! The words after a command: files, options with a value, and options without one.

use crate::profile::Profile;
use crate::tool::help;
use crate::tool::problem::Problem;
use std::ffi::OsString;
use std::path::PathBuf;
use std::str::FromStr;

/// The option for the separate profile.
pub const SEPARATE: &str = "--separate";

/// What a command takes.
pub struct Form {
    pub command: &'static str,
    /// The fewest and the most files.
    pub files: (usize, usize),
    pub with_value: &'static [&'static str],
    pub without_value: &'static [&'static str],
}

/// What it was given.
#[derive(Debug, Default)]
pub struct Arguments {
    pub files: Vec<PathBuf>,
    options: Vec<(String, String)>,
}

impl Form {
    pub fn read(&self, words: &[OsString]) -> Result<Arguments, Problem> {
        let mut read = Arguments::default();
        let mut words = words.iter();
        while let Some(word) = words.next() {
            match word.to_str().filter(|text| text.starts_with("--")) {
                Some(option) => self.option(option, &mut words, &mut read)?,
                None => read.files.push(PathBuf::from(word)),
            }
        }
        let (fewest, most) = self.files;
        match read.files.len() {
            given if given < fewest => Err(self.wrong("a file is missing")),
            given if given > most => Err(self.wrong("there are too many files")),
            _ => Ok(read),
        }
    }

    /// An option: `--name`, `--name value` or `--name=value`.
    fn option<'w>(
        &self,
        option: &str,
        words: &mut impl Iterator<Item = &'w OsString>,
        read: &mut Arguments,
    ) -> Result<(), Problem> {
        let (name, given) = match option.split_once('=') {
            Some((name, value)) => (name, Some(value.to_owned())),
            None => (option, None),
        };
        if read.has(name) {
            return Err(self.wrong(&format!("{name} is given twice")));
        }
        let value = if self.with_value.contains(&name) {
            let next = || words.next().map(|word| word.to_string_lossy().into_owned());
            let value = given.or_else(next).filter(|text| !text.starts_with("--"));
            value.ok_or_else(|| self.wrong(&format!("{name} needs a value")))?
        } else if self.without_value.contains(&name) && given.is_none() {
            String::new()
        } else {
            return Err(self.wrong(&format!("there is no option {option}")));
        };
        read.options.push((name.to_owned(), value));
        Ok(())
    }

    /// The value of an option, read as a `T`.
    pub fn value<T: FromStr>(&self, read: &Arguments, name: &str) -> Result<Option<T>, Problem> {
        let text = match read.value(name) {
            Some(text) => text,
            None => return Ok(None),
        };
        let wrong = || self.wrong(&format!("{name} takes a number, not {text}"));
        text.parse().map(Some).map_err(|_| wrong())
    }

    pub fn wrong(&self, text: &str) -> Problem {
        help::usage_of(self.command, text)
    }
}

impl Arguments {
    pub fn has(&self, name: &str) -> bool {
        self.value(name).is_some()
    }

    /// The profile that was asked for.
    pub fn profile(&self) -> Profile {
        match self.has(SEPARATE) {
            false => Profile::Common,
            true => Profile::Separate,
        }
    }

    pub fn value(&self, name: &str) -> Option<&str> {
        let found = self.options.iter().find(|(given, _)| given == name);
        found.map(|(_, value)| value.as_str())
    }
}
