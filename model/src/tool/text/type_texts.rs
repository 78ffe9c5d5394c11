//! The types of a table as texts, in the paper's notation: `num ref`, `num →1 unit`, `num ×ω num`,
//! `num listω`.

use crate::table::{
    Entry, CELL, FIRST_ENTRIES, MANY, MANY_LIST, MANY_PAIR, NUM, ONCE, ONCE_LIST, ONCE_PAIR, UNIT,
};
use crate::tool::text::spelling::Spelling;

/// A type whose text is longer than this goes by its number.
const WIDEST: usize = 72;

pub struct TypeTexts<'a> {
    pub entries: &'a [Entry],
    pub spelling: &'static Spelling,
    full: Vec<Option<String>>,
}

/// Where a type stands, for the brackets.
#[derive(Clone, Copy, PartialEq, Eq)]
enum Side {
    /// Under `ref` or `list`, or before `×`.
    Inside,
    /// After `×`.
    Second,
    /// Before an arrow.
    Parameter,
    /// After an arrow.
    Result,
}

impl<'a> TypeTexts<'a> {
    pub fn new(entries: &'a [Entry], spelling: &'static Spelling) -> TypeTexts<'a> {
        let mut texts = TypeTexts {
            entries,
            spelling,
            full: Vec::new(),
        };
        for e in entries {
            let made = texts.written(*e, |x, side| texts.full_at(x, side));
            let fits = |text: &String| text.chars().count() <= WIDEST;
            texts.full.push(made.filter(fits));
        }
        texts
    }

    /// An entry, its parts written by `part`; `None` for a kind that there is not.
    fn written(&self, e: Entry, part: impl Fn(u8, Side) -> Option<String>) -> Option<String> {
        let contents = |word: &str| Some(format!("{} {word}", part(e.p, Side::Inside)?));
        let between = |left: Side, sign: &str, right: Side| {
            Some(format!("{} {sign} {}", part(e.p, left)?, part(e.q, right)?))
        };
        let signs = self.spelling;
        match e.kind {
            UNIT => Some("unit".to_owned()),
            NUM => Some("num".to_owned()),
            CELL => contents("ref"),
            ONCE => between(Side::Parameter, signs.once, Side::Result),
            MANY => between(Side::Parameter, signs.many, Side::Result),
            ONCE_PAIR => between(Side::Inside, signs.pair_once, Side::Second),
            MANY_PAIR => between(Side::Inside, signs.pair_many, Side::Second),
            ONCE_LIST => contents(signs.list_once),
            MANY_LIST => contents(signs.list_many),
            _ => None,
        }
    }

    fn full_at(&self, number: u8, side: Side) -> Option<String> {
        let text = self.full.get(usize::from(number))?.clone()?;
        Some(if self.has_brackets(number, side) {
            format!("({text})")
        } else {
            text
        })
    }

    fn has_brackets(&self, number: u8, side: Side) -> bool {
        let kind = self.entries.get(usize::from(number)).map(|e| e.kind);
        match kind {
            Some(ONCE | MANY) => side != Side::Result,
            Some(ONCE_PAIR | MANY_PAIR) => side == Side::Inside,
            _ => false,
        }
    }

    pub fn is_function(&self, number: u8) -> bool {
        let e = self.entries.get(usize::from(number));
        e.map_or(false, |e| e.kind == ONCE || e.kind == MANY)
    }

    /// `unit`, `num`, `num ref`, else the number: `t7`.
    pub fn name(&self, number: u8) -> String {
        let place = usize::from(number);
        let first = FIRST_ENTRIES.get(place);
        match self.full(number) {
            Some(text) if first.is_some() && first == self.entries.get(place) => text,
            _ => format!("t{number}"),
        }
    }

    /// The entry by the names of its parts: `num →ω t4`.
    pub fn entry(&self, number: u8) -> Option<String> {
        let e = self.entries.get(usize::from(number))?;
        self.written(*e, |x, _| Some(self.name(x)))
    }

    /// The type in full, if it fits into a line.
    pub fn full(&self, number: u8) -> Option<String> {
        self.full.get(usize::from(number))?.clone()
    }

    /// The type in full if it fits into a line, else by its number.
    pub fn told(&self, number: u8) -> String {
        self.full(number).unwrap_or_else(|| format!("t{number}"))
    }
}
