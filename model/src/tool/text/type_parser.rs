//! The types of a text: the list at its beginning, and types where terms name them.

use crate::table::{
    entry, Entry, CELL, MANY, MANY_LIST, MANY_PAIR, NUM, ONCE, ONCE_LIST, ONCE_PAIR, UNIT,
};
use crate::tool::text::parser::{error, Parser};
use crate::tool::text::spelling::STARTING;
use crate::tool::text::tokens::{Position, TextError, Token};

impl Parser<'_> {
    /// `types`, then `t0 = unit` and so on; the places of the entries. None, without the word.
    pub fn listed_types(&mut self) -> Result<Vec<Position>, TextError> {
        let mut places = Vec::new();
        if !self.takes(Token::Word("types")) {
            return Ok(places);
        }
        while !matches!(self.peek(), Token::Word("bay" | STARTING) | Token::End) {
            let place = self.position();
            let own = format!("t{}", places.len());
            if self.peek() != Token::Word(&own) {
                return Err(self.expected(&format!("'{own}', the next type, or 'bay 0'")));
            }
            self.advance();
            self.expect(Token::Sign('='))?;
            let shape = self.shape()?;
            if self.types.list(shape).is_none() {
                return Err(too_many(place));
            }
            places.push(place);
        }
        Ok(places)
    }

    /// The number of the type that stands here.
    pub fn type_number(&mut self) -> Result<u8, TextError> {
        let place = self.position();
        let shape = self.shape()?;
        self.number_of(shape, place)
    }

    /// The number that stands here in brackets, in use or not, or the type that does.
    pub fn bracketed(&mut self) -> Result<u8, TextError> {
        self.expect(Token::Sign('['))?;
        let number = match numbered(self.peek()) {
            Some(number) if usize::from(number) >= self.types.entries.len() => {
                self.advance();
                number
            }
            _ => self.type_number()?,
        };
        self.expect(Token::Sign(']'))?;
        Ok(number)
    }

    /// The number of a type; while types are listed, only of one that is listed.
    fn number_of(&mut self, shape: Entry, place: Position) -> Result<u8, TextError> {
        if !self.listing {
            return self.number_of_used(shape, place);
        }
        let text = "this type has no number yet: list it in a line above".to_owned();
        self.types.known(shape).ok_or_else(|| error(place, text))
    }

    pub fn number_of_used(&mut self, shape: Entry, place: Position) -> Result<u8, TextError> {
        self.types.number_of(shape).ok_or_else(|| too_many(place))
    }

    /// A type as an entry over the numbers of its parts; arrows group to the right.
    fn shape(&mut self) -> Result<Entry, TextError> {
        self.grouped(Self::shape_of_pair, Self::shape, |sign| match sign {
            Token::OnceArrow => Some(ONCE),
            Token::ManyArrow => Some(MANY),
            _ => None,
        })
    }

    /// A type without arrows; the signs of pairs group to the right.
    fn shape_of_pair(&mut self) -> Result<Entry, TextError> {
        self.grouped(
            Self::shape_of_contents,
            Self::shape_of_pair,
            |sign| match sign {
                Token::OncePair => Some(ONCE_PAIR),
                Token::ManyPair => Some(MANY_PAIR),
                _ => None,
            },
        )
    }

    /// What `first` reads; where a sign of a kind follows, that kind over it and what `rest` reads.
    fn grouped(
        &mut self,
        first: fn(&mut Self) -> Result<Entry, TextError>,
        rest: fn(&mut Self) -> Result<Entry, TextError>,
        kind_of: fn(Token) -> Option<u8>,
    ) -> Result<Entry, TextError> {
        let place = self.position();
        let left = first(self)?;
        let kind = match kind_of(self.peek()) {
            Some(kind) => kind,
            None => return Ok(left),
        };
        self.advance();
        let p = self.number_of(left, place)?;
        let place = self.position();
        let right = self.deeper(rest)?;
        let q = self.number_of(right, place)?;
        Ok(entry(kind, p, q))
    }

    /// `unit`, `num`, `t5` or a type in brackets, each with any number of `ref`, `list1` and `listω`
    /// after it.
    fn shape_of_contents(&mut self) -> Result<Entry, TextError> {
        let place = self.position();
        let mut shape = match self.peek() {
            Token::Word("unit") => entry(UNIT, 0, 0),
            Token::Word("num") => entry(NUM, 0, 0),
            Token::Sign('(') => {
                self.advance();
                let inner = self.deeper(|parser| parser.shape())?;
                if self.peek() != Token::Sign(')') {
                    return Err(self.expected("')' or an arrow"));
                }
                inner
            }
            token => self.listed(token)?,
        };
        self.advance();
        loop {
            let kind = match self.peek() {
                Token::Word("ref") => CELL,
                Token::OnceList => ONCE_LIST,
                Token::ManyList => MANY_LIST,
                _ => return Ok(shape),
            };
            self.advance();
            let p = self.number_of(shape, place)?;
            shape = entry(kind, p, 0);
        }
    }

    /// The entry that a word such as `t5` names.
    fn listed(&self, token: Token) -> Result<Entry, TextError> {
        let number = match numbered(token) {
            Some(number) => number,
            None => return Err(self.expected("a type")),
        };
        let found = self.types.entries.get(usize::from(number)).copied();
        let text = || format!("there is no t{number} so far");
        found.ok_or_else(|| error(self.position(), text()))
    }
}

/// The number of a word such as `t5`.
fn numbered(token: Token) -> Option<u8> {
    let word = match token {
        Token::Word(word) => word,
        _ => return None,
    };
    let digits = word.strip_prefix('t')?;
    let plain = digits.chars().all(|c| c.is_ascii_digit());
    plain.then(|| digits.parse().ok())?
}

fn too_many(place: Position) -> TextError {
    error(place, "a recipe has at most 256 types".to_owned())
}
