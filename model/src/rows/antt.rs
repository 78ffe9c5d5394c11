//! The text of the crate's files: templates, with the rows put in.

use crate::answers::{DONE, REFUSED, RULE};
use crate::rows::checks::CheckRow;
use crate::rows::loads::LoadRow;
use crate::rows::steps::StepRow;
use crate::rows::Written;

/// The rows of one file.
const ROWS: usize = 60;

/// A kind of table: the name of its files before a number, and the text around the rows.
pub struct Table {
    name: &'static str,
    template: &'static str,
}

pub const CHECKS: Table = Table {
    name: "Checks",
    template: include_str!("templates/Checks.antt.in"),
};

pub const LOADS: Table = Table {
    name: "Loads",
    template: include_str!("templates/Loads.antt.in"),
};

pub const STEPS: Table = Table {
    name: "Steps",
    template: include_str!("templates/Steps.antt.in"),
};

impl Table {
    /// The rows, in as many files as they need.
    pub fn files<R>(&self, rows: &[R], text: fn(&R) -> String) -> Vec<Written> {
        let file = |(number, rows): (usize, &[R])| Written {
            name: format!("{}{number}", self.name),
            text: self.filled(&rows.iter().map(text).collect::<Vec<_>>()),
        };
        (1..).zip(rows.chunks(ROWS)).map(file).collect()
    }

    fn filled(&self, rows: &[String]) -> String {
        let list = format!("    {}\n    ∷ []", rows.join("\n    ∷ "));
        let counted = self.template.replace("@COUNT@", &rows.len().to_string());
        counted.replace("@ROWS@", &list)
    }
}

/// A list of bytes as an argument, in antt.
fn argument(bytes: &[u8]) -> String {
    if bytes.is_empty() {
        return "[]".to_owned();
    }
    let items = bytes.iter().map(|byte| format!("0x{byte:02X} ∷ "));
    format!("({}[])", items.collect::<String>())
}

pub fn check_row(row: &CheckRow) -> String {
    let types = &row.answer.types[..row.answer.bays as usize];
    let (file, types) = (argument(&row.file), argument(types));
    format!("check_row {file} {} {types}", row.answer.refusal)
}

pub fn load_row(row: &LoadRow) -> String {
    let types = argument(&row.answer.types[..row.answer.bays as usize]);
    let (file, image) = (argument(&row.file), argument(&row.image));
    let (room, refusal) = (row.room, row.answer.refusal);
    format!("load_row {file} {room} {refusal} {types} {image}")
}

pub fn step_row(row: &StepRow) -> String {
    let outcome = match row.answer.outcome {
        DONE => "Done".to_owned(),
        RULE => format!("(Rule {} {})", row.answer.number, row.answer.length),
        REFUSED => format!("(Refused {})", row.answer.number),
        _ => format!("(Waiting {})", row.answer.number),
    };
    let (image, new) = (argument(&row.image), argument(&row.new));
    let (thread, room) = (row.thread, row.room);
    format!("step_row {image} {thread} {room} {outcome} {new}")
}

/// The file with the shapes of rows.
pub fn shapes() -> Written {
    Written {
        name: "Rows".to_owned(),
        text: include_str!("templates/Rows.antt.in").to_owned(),
    }
}

/// The root of the crate's definitions: it names every other file.
pub fn root(files: &[Written]) -> Written {
    let modules = files.iter().map(|file| format!("pub mod {}\n", file.name));
    let modules = modules.collect::<String>();
    Written {
        name: "Lib".to_owned(),
        text: include_str!("templates/Lib.antt.in").replace("@MODULES@\n", &modules),
    }
}
