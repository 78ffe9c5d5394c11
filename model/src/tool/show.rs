//! `recipe show`: a file as text; for a refused file, why, where, and what can be shown of it.

pub mod remains;

use crate::editions;
use crate::format::hexadecimal;
use crate::profile::Profile;
use crate::table::Table;
use crate::tool::arguments::{Form, SEPARATE};
use crate::tool::faults::{self, Parts, Place};
use crate::tool::files;
use crate::tool::judge::{self, Refusal};
use crate::tool::problem::{message, Outcome};
use crate::tool::text::layout::laid_out;
use crate::tool::text::printer::Printer;
use crate::tool::text::spelling::{Spelling, ASCII, START, STARTING, UNICODE};
use crate::tool::text::type_texts::TypeTexts;
use remains::{cut_text, first_bytes};
use std::ffi::OsString;
use std::fmt::Write as _;
use std::io::Write;

const FORM: Form = Form {
    command: "show",
    files: (1, 1),
    with_value: &[],
    without_value: &["--ascii", SEPARATE],
};

pub fn command(words: &[OsString], out: &mut dyn Write) -> Outcome {
    let read = FORM.read(words)?;
    let path = &read.files[0];
    let file = files::read(path)?;
    let spelling = if read.has("--ascii") {
        &ASCII
    } else {
        &UNICODE
    };
    let (name, profile) = (path.display().to_string(), read.profile());
    out.write_all(shown_in(profile, &name, &file, spelling).as_bytes())?;
    match judge::refusal(profile, &file) {
        None => Ok(()),
        Some(refusal) => Err(message(format!("{name}: {}", refusal.short()))),
    }
}

/// The file as text in the common profile, with what is known of it in lines that `write` reads over.
pub fn shown(name: &str, file: &[u8], spelling: &'static Spelling) -> String {
    shown_in(Profile::Common, name, file, spelling)
}

/// The same in that profile.
pub fn shown_in(profile: Profile, name: &str, file: &[u8], spelling: &'static Spelling) -> String {
    let parts = Parts::of(file);
    let mut text = match judge::refusal(profile, file) {
        Some(refusal) => told(name, &refusal) + &first_bytes(file, &parts),
        None => format!("# {}: {}\n", one_line(name), judge::accepted(profile)),
    };
    if parts.entries.is_empty() {
        return text;
    }
    let nodes: usize = parts
        .terms
        .iter()
        .map(|part| faults::terms::read(parts.edition, part).nodes.len())
        .sum();
    let _ = writeln!(
        text,
        "# {}, {}, {}, {}\n",
        counted(parts.terms.len(), "bay"),
        counted(parts.entries.len(), "type"),
        counted(nodes, "node"),
        counted(file.len(), "byte")
    );
    let texts = TypeTexts::new(&parts.entries, spelling);
    text += &edition(&parts);
    text += &types(&texts);
    text += &starting_part(&parts);
    for (bay, part) in parts.terms.iter().enumerate() {
        text += &bay_text(&parts, bay, part, &texts);
    }
    text
}

/// "1 bay", "2 bays"
fn counted(count: usize, what: &str) -> String {
    let plural = if count == 1 { "" } else { "s" };
    format!("{count} {what}{plural}")
}

/// A file's name may hold anything, also a line's end.
fn one_line(name: &str) -> String {
    name.chars().filter(|c| !c.is_control()).collect()
}

/// The refusal, its place and what was found.
pub fn told(name: &str, refusal: &Refusal) -> String {
    let first = format!("# {}: {}\n", one_line(name), refusal.in_words());
    let fault = match &refusal.fault {
        Some(fault) => fault,
        None => return first + "# where: this tool finds no place for it\n",
    };
    let offset = match fault.place {
        Place::File => String::new(),
        _ => format!(", byte {} of the file", fault.offset),
    };
    let (place, found) = (&fault.place, &fault.found);
    format!("{first}# where: {place}{offset}\n# found: {found}\n")
}

/// `edition 2`, `edition 3`; of the first edition nothing is said.
fn edition(parts: &Parts) -> String {
    match parts.edition {
        editions::FIRST => String::new(),
        other => format!("edition {}\n\n", other.number),
    }
}

/// `types`, then a line for each entry; after it the type in full, where that says more.
fn types(texts: &TypeTexts) -> String {
    let mut text = "types\n".to_owned();
    for (number, entry) in (0..=u8::MAX).zip(texts.entries) {
        let written = match texts.entry(number) {
            Some(written) => written,
            None => {
                let bytes = hexadecimal(&entry.bytes());
                let _ = writeln!(text, "  # t{number} is no type: {bytes}");
                continue;
            }
        };
        let line = format!("  t{number} = {written}");
        let full = texts.full(number).filter(|full| *full != written);
        text += &match full {
            Some(full) => format!("{line:<28} # {full}\n"),
            None => format!("{line}\n"),
        };
    }
    text
}

/// `starting [250, 0, 7]`, where these are not the nums of the bays.
fn starting_part(parts: &Parts) -> String {
    let bytes = match parts.other_starting_part() {
        Some(bytes) => bytes,
        None => return String::new(),
    };
    let numbers: Vec<String> = bytes.iter().map(u8::to_string).collect();
    let lines: Vec<String> = numbers
        .chunks(BYTES_IN_LINE)
        .map(|b| b.join(", "))
        .collect();
    format!("\n{STARTING} [{}]\n", lines.join(",\n  "))
}

/// How many bytes of a starting part stand in a line.
const BYTES_IN_LINE: usize = 16;

/// `bay k : type =`, `start N` where the edition has it, then the term.
fn bay_text(parts: &Parts, bay: usize, part: &[u8], texts: &TypeTexts) -> String {
    let reading = faults::terms::read(parts.edition, part);
    let start = parts.start(bay);
    if reading.stopped.is_some() {
        return cut_text(bay, start, &reading.nodes, part);
    }
    let printer = Printer::new(&reading.nodes, texts);
    let sound = Table::read(parts.edition, texts.entries).is_some();
    let root = printer.types[0].filter(|_| sound);
    let claim = root.map_or(String::new(), |t| format!(" : {}", texts.name(t)));
    let start = start.map_or(String::new(), |num| format!("  {START} {num}\n"));
    let term = laid_out(&printer, 2);
    format!("\nbay {bay}{claim} =\n{start}  {term}\n")
}
