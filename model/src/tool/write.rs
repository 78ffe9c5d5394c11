//! `recipe write`: a text as a file of bytes.

use crate::profile::Profile;
use crate::tool::arguments::{Form, SEPARATE};
use crate::tool::faults::Place;
use crate::tool::files;
use crate::tool::judge::{self, Refusal};
use crate::tool::problem::{message, Outcome, Problem};
use crate::tool::text::hints;
use crate::tool::text::parser::{read, Read};
use crate::tool::text::tokens::{Position, TextError};
use std::ffi::OsString;
use std::io::Write;
use std::path::{Path, PathBuf};

const FORM: Form = Form {
    command: "write",
    files: (1, 2),
    with_value: &[],
    without_value: &["--force", "--even-refused", SEPARATE],
};

pub fn command(words: &[OsString], out: &mut dyn Write) -> Outcome {
    let given = FORM.read(words)?;
    let from = &given.files[0];
    let to = match given.files.get(1) {
        Some(to) => to.clone(),
        None => beside(from)?,
    };
    let bytes = files::read(from)?;
    let made = judged(given.profile(), &bytes, given.has("--even-refused"));
    let (made, verdict) = made.map_err(|text| message(format!("{}{text}", from.display())))?;
    if to == Path::new("-") {
        out.write_all(&made)?;
        return Ok(());
    }
    if files::same(from, &to) {
        let text = format!("{} is the text itself; name another file", to.display());
        return Err(message(text));
    }
    files::write(&to, given.has("--force"), &made)?;
    writeln!(out, "{}: {} bytes, {verdict}", to.display(), made.len())?;
    Ok(())
}

/// The text's own name with `.recipe` at the end.
fn beside(from: &Path) -> Result<PathBuf, Problem> {
    if from == Path::new("-") {
        return Err(FORM.wrong("a text from standard input needs the name of the file to write"));
    }
    Ok(from.with_extension("recipe"))
}

/// The bytes of a text in the common profile; an error begins with its place, to stand after the file's
/// name.
pub fn made(text: &[u8], even_refused: bool) -> Result<Vec<u8>, String> {
    made_in(Profile::Common, text, even_refused)
}

/// The same in that profile.
pub fn made_in(profile: Profile, text: &[u8], even_refused: bool) -> Result<Vec<u8>, String> {
    judged(profile, text, even_refused).map(|(file, _)| file)
}

/// The same with the verdict in words.
fn judged(profile: Profile, text: &[u8], even_refused: bool) -> Result<(Vec<u8>, String), String> {
    let no_text = |at| format!(": {}", hints::no_text(text, at));
    let text = std::str::from_utf8(text).map_err(|error| no_text(error.valid_up_to()))?;
    let read = read(text).map_err(|error| placed(&error))?;
    let file = read.file();
    match judge::refusal_in(profile, &file, &read.nodes) {
        Some(refusal) if !even_refused => Err(refused(&read, &refusal)),
        Some(refusal) => Ok((file, refusal.short())),
        None => Ok((file, judge::accepted(profile))),
    }
}

fn placed(error: &TextError) -> String {
    let Position { line, column } = error.position;
    format!(":{line}:{column}: {}", error.message)
}

/// The refusal, at the place in the text.
fn refused(read: &Read, refusal: &Refusal) -> String {
    let words = refusal.in_words();
    let fault = match &refusal.fault {
        Some(fault) => fault,
        None => return format!(": {words}"),
    };
    let message = format!("{words}; {}", fault.found);
    let position = match &fault.place {
        Place::Entry(number) => read.entries.get(*number),
        Place::Node(bay, at, _) => {
            let spot = read.nodes.get(*bay).and_then(|spots| spots.get(*at));
            spot.map(|spot| &spot.position)
        }
        Place::Starting => read.starting.as_ref().map(|part| &part.position),
        Place::File | Place::Opening | Place::Pair(_) => None,
    };
    match position {
        Some(position) => placed(&TextError {
            position: *position,
            message,
        }),
        None => format!(": {message}"),
    }
}
