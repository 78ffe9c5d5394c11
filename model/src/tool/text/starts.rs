//! What the bays of a text start with: `start 250` in a bay, or the starting part byte by byte.

use crate::editions::{Edition, THIRD};
use crate::tool::text::parser::{error, within_a_file, Parser};
use crate::tool::text::spelling::{START, STARTING};
use crate::tool::text::tokens::{Position, TextError, Token};

/// `start 250`
#[derive(Debug, Clone, Copy)]
pub struct Start {
    position: Position,
    num: u16,
}

/// `starting [250, 0, 7]`
#[derive(Debug)]
pub struct StartingPart {
    pub position: Position,
    pub bytes: Vec<u8>,
}

impl Parser<'_> {
    /// `start N`, or nothing. No variable is bound here, so the word means nothing else.
    pub fn start(&mut self) -> Result<Option<Start>, TextError> {
        let position = self.position();
        if !self.takes(Token::Word(START)) {
            return Ok(None);
        }
        let num = self.number("a starting num", u16::MAX)?;
        if self.peek() == Token::Word(START) {
            let text = "the bay has a start already".to_owned();
            return Err(error(self.position(), text));
        }
        Ok(Some(Start { position, num }))
    }

    /// `starting [N, N]`, or nothing.
    pub fn starting_part(&mut self) -> Result<Option<StartingPart>, TextError> {
        let position = self.position();
        if !self.takes(Token::Word(STARTING)) {
            return Ok(None);
        }
        self.expect(Token::Sign('['))?;
        let mut bytes = Vec::new();
        while bytes.is_empty() || self.takes(Token::Sign(',')) {
            within_a_file(bytes.len(), self.position())?;
            bytes.push(self.number("a byte", u8::MAX.into())? as u8);
        }
        self.expect(Token::Sign(']'))?;
        Ok(Some(StartingPart { position, bytes }))
    }
}

/// The edition that the text says, or the third where it says none and something starts.
pub fn edition(
    said: Option<u8>,
    part: Option<&StartingPart>,
    starts: &[Option<Start>],
) -> Result<Option<u8>, TextError> {
    let start = starts.iter().flatten().next();
    if let (Some(_), Some(start)) = (part, start) {
        let text = "the starting part stands above, byte by byte".to_owned();
        return Err(error(start.position, text));
    }
    let first = part.map(|part| part.position);
    let first = first.or_else(|| start.map(|start| start.position));
    match (said, first) {
        (Some(said), Some(position)) if said != THIRD.number => {
            let text = format!(
                "edition {said} has no starting nums; edition {} has",
                THIRD.number
            );
            Err(error(position, text))
        }
        (None, Some(_)) => Ok(Some(THIRD.number)),
        (said, _) => Ok(said),
    }
}

/// The bays' starting nums, where the edition has them: 0 for a bay that says none.
pub fn nums(edition: u8, starts: &[Option<Start>]) -> Vec<u16> {
    let has = Edition::of(edition).map_or(false, |edition| edition.starting);
    let bays = starts.iter().filter(|_| has);
    bays.map(|start| start.map_or(0, |start| start.num))
        .collect()
}
