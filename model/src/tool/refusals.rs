//! The refusals in the documents' words, and the rules by name.

use crate::causes;
use crate::profile::Profile;

/// The cause of each number, 1 first.
const CAUSES: [&str; 21] = [
    "file length outside 12 to 8,192",
    "first two bytes, edition, or n outside 2 to 17, in edition 3 outside 3 to 18",
    "pairs break the layout; table length no multiple of 3, or outside 9 to 768",
    "a type entry breaks its rule",
    "a part is not exactly one term: unknown tag, cut, bytes over",
    "nesting or nodes above the limit",
    "index with no lambda, name not below b, type number not below t",
    "lambda's type no function, constant's type no instance of Fig. 8, pair's no pair, list front's no list",
    "application of a non-function, argument, body, component or subject of another type",
    "a once-variable not used exactly once, or free under a many-lambda",
    "a bay's type has multiplicity once",
    "out buffer under 13,826 bytes",
    "image breaks a rule or limit under \"The image\"",
    "number is no thread",
    "a rule applies, outcome above 256 names or 4,096 nodes",
    "used handle applied",
    "two values meet, neither a rule, nor waiting, nor 16",
    "a seed of zero",
    "a starting part whose length is not twice the number of bays",
    "a bay names another bay's setting",
    "a bay starts above its share",
];

/// The rules in Fig. 5's order, 1 first, and document 02's two.
const RULES: [&str; 9] = [
    "BETA",
    "THREAD.NEW",
    "FUTURE.DEREF",
    "HANDLE.NEW",
    "HANDLE.BIND",
    "CELL.NEW",
    "CELL.EXCH",
    "PAIR.CASE",
    "LIST.CASE",
];

/// The cause of that number in words.
pub fn in_words(number: u32) -> &'static str {
    named(&CAUSES, number).unwrap_or("a number that the documents do not have")
}

/// The same where a step of that profile answers it.
pub fn in_words_of(profile: Profile, number: u32) -> &'static str {
    match (profile, number) {
        (Profile::Separate, causes::ROOM) => "a rule applies, outcome leaves a bay above its share",
        _ => in_words(number),
    }
}

/// The name of that rule.
pub fn rule(number: u32) -> &'static str {
    named(&RULES, number).unwrap_or("a rule that there is not")
}

fn named(names: &[&'static str], number: u32) -> Option<&'static str> {
    let place = usize::try_from(number).ok()?.checked_sub(1)?;
    names.get(place).copied()
}
