//! Help for what other languages write and a recipe does not have.

use crate::tool::text::spelling::START;

const NUM: &str = "a num is a whole number from 0 to 65535";
/// A vent is set in tenths of a percent.
const TENTHS: usize = 1;

/// What to write instead of a word that a recipe does not have, to stand after a message.
pub fn of_word(word: &str) -> &'static str {
    match word {
        "let" => " (a recipe has no let: (λx:type. body) value names a value)",
        "fun" | "fn" | "lambda" => " (a function is λx:type. body, or \\x:type. body)",
        START => " (a bay's start stands between its '=' and its term: bay 0 = start 250 unit)",
        _ => "",
    }
}

/// The complaint about a number at the front of the text with more than digits in it.
pub fn number(rest: &str) -> Option<String> {
    let digits = rest.strip_prefix('-').unwrap_or(rest);
    let is_part = |c: char| c.is_ascii_alphanumeric() || c == '_' || c == '.';
    let length = digits.find(|c| !is_part(c)).unwrap_or(digits.len());
    let after = digits[..length].trim_end_matches('.');
    let number = &rest[..rest.len() - digits.len() + after.len()];
    let begins = digits.starts_with(|c: char| c.is_ascii_digit());
    if !begins || number.chars().all(|c| c.is_ascii_digit()) {
        return None;
    }
    Some(format!("{number} is no num: {NUM}{}", in_tenths(number)))
}

/// For 12.5: what a num of so many percent is.
fn in_tenths(number: &str) -> String {
    let (whole, part) = match number.split_once('.') {
        Some(found) => found,
        None => return String::new(),
    };
    let plain = |text: &str| !text.is_empty() && text.chars().all(|c| c.is_ascii_digit());
    if !plain(whole) || !plain(part) || part.len() != TENTHS {
        return String::new();
    }
    let tenths = format!("{whole}{part}");
    let tenths = tenths.trim_start_matches('0');
    let tenths = if tenths.is_empty() { "0" } else { tenths };
    format!(", in tenths of a percent ({number} percent is {tenths})")
}

/// What is wrong with bytes that are no text in UTF-8.
pub fn no_text(bytes: &[u8], valid: usize) -> String {
    let wide = bytes.starts_with(&[0xFF, 0xFE]) || bytes.starts_with(&[0xFE, 0xFF]);
    let more = if wide {
        " (it is UTF-16; save the text as UTF-8)"
    } else {
        ""
    };
    format!("no text in UTF-8: byte {valid}{more}")
}

pub const BYTE_ORDER_MARK: char = '\u{FEFF}';
/// The complaint about it.
pub const WITHOUT_MARK: &str = "here is a byte-order mark; save the text as UTF-8 without one";
