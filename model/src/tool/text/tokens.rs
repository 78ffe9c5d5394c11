//! The text as a list of words, numbers and signs, each with its line and column.

use crate::tool::text::hints;
use std::fmt;

/// Both counted from 1, columns in characters.
#[derive(Debug, Clone, Copy, PartialEq, Eq)]
pub struct Position {
    pub line: usize,
    pub column: usize,
}

/// What is wrong with a text, and where.
#[derive(Debug, Clone, PartialEq, Eq)]
pub struct TextError {
    pub position: Position,
    pub message: String,
}

#[derive(Debug, Clone, Copy, PartialEq, Eq)]
pub enum Token<'t> {
    Word(&'t str),
    Number(&'t str),
    Lambda,
    OnceArrow,
    ManyArrow,
    OncePair,
    ManyPair,
    OnceList,
    ManyList,
    /// Between the first element of a list and the rest.
    Front,
    /// Before the body of a case.
    Body,
    Sign(char),
    End,
}

impl fmt::Display for Token<'_> {
    fn fmt(&self, f: &mut fmt::Formatter<'_>) -> fmt::Result {
        match self {
            Token::Word(text) | Token::Number(text) => write!(f, "'{text}'"),
            Token::Lambda => write!(f, "'λ'"),
            Token::OnceArrow => write!(f, "'→1'"),
            Token::ManyArrow => write!(f, "'→ω'"),
            Token::OncePair => write!(f, "'×1'"),
            Token::ManyPair => write!(f, "'×ω'"),
            Token::OnceList => write!(f, "'list1'"),
            Token::ManyList => write!(f, "'listω'"),
            Token::Front => write!(f, "'::'"),
            Token::Body => write!(f, "'⇒'"),
            Token::Sign(sign) => write!(f, "'{sign}'"),
            Token::End => write!(f, "the end of the text"),
        }
    }
}

#[derive(Debug, Clone, Copy)]
pub struct Placed<'t> {
    pub token: Token<'t>,
    pub position: Position,
}

/// The signs of more than one spelling.
const SPELLED: [(&str, Token<'static>); 14] = [
    ("λ", Token::Lambda),
    ("\\", Token::Lambda),
    ("→1", Token::OnceArrow),
    ("-1>", Token::OnceArrow),
    ("→ω", Token::ManyArrow),
    ("-w>", Token::ManyArrow),
    ("×1", Token::OncePair),
    ("*1", Token::OncePair),
    ("×ω", Token::ManyPair),
    ("*w", Token::ManyPair),
    ("listω", Token::ManyList),
    ("::", Token::Front),
    ("⇒", Token::Body),
    ("=>", Token::Body),
];

/// Words of ASCII that are signs.
const LISTS: [(&str, Token<'static>); 2] = [("list1", Token::OnceList), ("listw", Token::ManyList)];

const SIGNS: &str = ".:=()[]@,";

/// The tokens of a text, the end being the last.
pub fn tokens(text: &str) -> Result<Vec<Placed<'_>>, TextError> {
    let mut found = Vec::new();
    let mut lines = 0;
    for (number, line) in text.lines().enumerate() {
        tokens_of_line(line, number + 1, &mut found)?;
        lines = number + 1;
    }
    let position = Position {
        line: lines + 1,
        column: 1,
    };
    let token = Token::End;
    found.push(Placed { token, position });
    Ok(found)
}

fn tokens_of_line<'t>(
    line: &'t str,
    number: usize,
    found: &mut Vec<Placed<'t>>,
) -> Result<(), TextError> {
    let mut rest = line;
    let mut column = 1;
    while let Some(first) = rest.chars().next() {
        let position = Position {
            line: number,
            column,
        };
        if first == '#' {
            return Ok(());
        }
        let length = if first.is_whitespace() {
            first.len_utf8()
        } else {
            let last = found.last().map(|placed| placed.token);
            let (token, length) =
                token_at(rest, first, last).ok_or_else(|| unknown(rest, first, position))?;
            found.push(Placed { token, position });
            length
        };
        column += rest[..length].chars().count();
        rest = &rest[length..];
    }
    Ok(())
}

/// The token at the front of the text, after that last one, and its length in bytes.
fn token_at<'t>(rest: &'t str, first: char, last: Option<Token>) -> Option<(Token<'t>, usize)> {
    let until = |inside: fn(char) -> bool| rest.find(|c| !inside(c)).unwrap_or(rest.len());
    if first.is_ascii_digit() {
        let length = until(|c| c.is_ascii_digit());
        // the mark of `λ1x` may stand before a name
        let is_whole = last == Some(Token::Lambda) || hints::number(rest).is_none();
        return is_whole.then_some((Token::Number(&rest[..length]), length));
    }
    let spelled = SPELLED.iter().find(|(sign, _)| rest.starts_with(sign));
    if let Some((sign, token)) = spelled {
        return Some((*token, sign.len()));
    }
    if first.is_ascii_alphabetic() || first == '_' {
        let length = until(|c| c.is_ascii_alphanumeric() || c == '_' || c == '\'');
        let word = &rest[..length];
        let list = LISTS.iter().find(|(list, _)| *list == word);
        return Some((list.map_or(Token::Word(word), |(_, token)| *token), length));
    }
    SIGNS.contains(first).then_some((Token::Sign(first), 1))
}

fn unknown(rest: &str, first: char, position: Position) -> TextError {
    if let Some(message) = hints::number(rest) {
        return TextError { position, message };
    }
    let message = match first {
        hints::BYTE_ORDER_MARK => hints::WITHOUT_MARK.to_owned(),
        '→' | '-' => "expected an arrow: →1 or →ω (-1> or -w>)".to_owned(),
        '×' | '*' => "expected the sign of a pair type: ×1 or ×ω (*1 or *w)".to_owned(),
        _ => format!("there is no sign '{}' in a recipe", first.escape_default()),
    };
    TextError { position, message }
}
