//! The signs of the text form, in Unicode and in ASCII; and the names of what has none in the file.

use crate::types::Constant;

/// How the signs are written: λ, the arrows, pair and list types, and what stands before a case's
/// body.
#[derive(Debug)]
pub struct Spelling {
    pub lambda: &'static str,
    pub once: &'static str,
    pub many: &'static str,
    pub pair_once: &'static str,
    pub pair_many: &'static str,
    pub list_once: &'static str,
    pub list_many: &'static str,
    pub body: &'static str,
}

pub const UNICODE: Spelling = Spelling {
    lambda: "λ",
    once: "→1",
    many: "→ω",
    pair_once: "×1",
    pair_many: "×ω",
    list_once: "list1",
    list_many: "listω",
    body: "⇒",
};

pub const ASCII: Spelling = Spelling {
    lambda: "\\",
    once: "-1>",
    many: "-w>",
    pair_once: "*1",
    pair_many: "*w",
    list_once: "list1",
    list_many: "listw",
    body: "=>",
};

/// The four constants that carry a type.
pub const CONSTANTS: [(&str, Constant); 4] = [
    ("cell", Constant::Cell),
    ("exch", Constant::Exch),
    ("thread", Constant::Thread),
    ("handle", Constant::Handle),
];

pub fn constant_name(constant: Constant) -> &'static str {
    let found = CONSTANTS.iter().find(|(_, c)| *c == constant);
    found.map_or("", |(name, _)| name)
}

/// Words that are no variables.
pub const KEPT_WORDS: [&str; 12] = [
    "edition", "types", "bay", "unit", "num", "ref", "cell", "exch", "thread", "handle", "case",
    "of",
];

/// The word before the number of a bay whose setting is meant.
pub const SETTING: &str = "setting";

/// The word before a bay's starting num, between the bay's `=` and its term.
pub const START: &str = "start";

/// The word before the bytes of a starting part, in front of the bays.
pub const STARTING: &str = "starting";

/// The name of a variable that stands under that many others.
pub fn variable_name(others: usize) -> String {
    const FIRST: [&str; 6] = ["x", "y", "z", "u", "v", "w"];
    match FIRST.get(others) {
        Some(name) => (*name).to_owned(),
        None => format!("x{others}"),
    }
}
