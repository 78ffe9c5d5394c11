//! A text read as a recipe: its edition, its list of types, its starting part, then each bay.

use crate::editions;
use crate::format::{write_parts, Recipe};
use crate::limits;
use crate::nodes::Node;
use crate::tool::text::hints;
use crate::tool::text::numbering::Numbering;
use crate::tool::text::spelling::UNICODE;
use crate::tool::text::spot::Spot;
use crate::tool::text::starts::{self, Start, StartingPart};
use crate::tool::text::tokens::{tokens, Placed, Position, TextError, Token};
use crate::tool::text::type_texts::TypeTexts;

/// More nodes and brackets than any recipe file can have.
const MOST: usize = *limits::FILE_BYTES.end();

/// The nodes of a term, and where they stand.
type Nodes = (Vec<Node>, Vec<Spot>);

/// A recipe, and where in the text its entries and nodes stand.
#[derive(Debug)]
pub struct Read {
    pub recipe: Recipe,
    /// Of the entries that the text lists.
    pub entries: Vec<Position>,
    /// Where the text has it byte by byte, in the place of starting nums.
    pub starting: Option<StartingPart>,
    pub nodes: Vec<Vec<Spot>>,
}

impl Read {
    /// The bytes of the file.
    pub fn file(&self) -> Vec<u8> {
        let mut parts = self.recipe.parts();
        if let Some(starting) = &self.starting {
            parts[editions::STARTING_PART] = starting.bytes.clone();
        }
        write_parts(self.recipe.edition, &parts)
    }
}

/// The recipe that a text describes.
pub fn read(text: &str) -> Result<Read, TextError> {
    let mut parser = Parser {
        tokens: tokens(text)?,
        at: 0,
        depth: 0,
        nodes: 0,
        listing: true,
        types: Numbering::default(),
        scope: Vec::new(),
    };
    let said = parser.edition()?;
    let entries = parser.listed_types()?;
    parser.listing = false;
    parser.types.complete_first();
    let starting = parser.starting_part()?;
    let mut starts = Vec::new();
    let mut terms = Vec::new();
    let mut nodes = Vec::new();
    while terms.is_empty() || parser.peek() != Token::End {
        let (start, (term, spots)) = parser.bay(terms.len())?;
        starts.push(start);
        terms.push(term);
        nodes.push(spots);
    }
    let listed = parser.types.entries;
    let said = starts::edition(said, starting.as_ref(), &starts)?;
    let edition = said.unwrap_or_else(|| editions::least(&listed, &terms).number);
    let recipe = Recipe {
        edition,
        entries: listed,
        starts: starts::nums(edition, &starts),
        terms,
    };
    Ok(Read {
        recipe,
        entries,
        starting,
        nodes,
    })
}

pub struct Parser<'t> {
    tokens: Vec<Placed<'t>>,
    at: usize,
    depth: usize,
    nodes: usize,
    /// Whether the types are being listed, so that no other gets a number.
    pub listing: bool,
    pub types: Numbering,
    /// The variables around, the innermost last, with their types where these are known.
    pub scope: Vec<(&'t str, Option<u8>)>,
}

impl<'t> Parser<'t> {
    pub fn peek(&self) -> Token<'t> {
        self.tokens[self.at].token
    }

    pub fn position(&self) -> Position {
        self.tokens[self.at].position
    }

    pub fn advance(&mut self) -> Token<'t> {
        let token = self.peek();
        if self.at + 1 < self.tokens.len() {
            self.at += 1;
        }
        token
    }

    /// Whether the next token is this one, which is then left behind.
    pub fn takes(&mut self, wanted: Token) -> bool {
        let found = self.peek() == wanted;
        if found {
            self.advance();
        }
        found
    }

    pub fn expected(&self, what: &str) -> TextError {
        let found = self.peek();
        let hint = match found {
            Token::Word(word) => hints::of_word(word),
            _ => "",
        };
        let text = format!("expected {what}, found {found}{hint}");
        error(self.position(), text)
    }

    pub fn expect(&mut self, wanted: Token) -> Result<(), TextError> {
        if self.takes(wanted) {
            return Ok(());
        }
        Err(self.expected(&wanted.to_string()))
    }

    /// A number up to `most`.
    pub fn number(&mut self, what: &str, most: u16) -> Result<u16, TextError> {
        let text = match self.peek() {
            Token::Number(text) => text,
            _ => return Err(self.expected(what)),
        };
        let value = text.parse().ok().filter(|value| *value <= most);
        let value = value.ok_or_else(|| self.expected(&format!("{what}, at most {most}")))?;
        self.advance();
        Ok(value)
    }

    /// One level deeper: bounded, so that no text can exhaust the stack.
    pub fn deeper<T>(
        &mut self,
        work: impl FnOnce(&mut Self) -> Result<T, TextError>,
    ) -> Result<T, TextError> {
        self.depth += 1;
        if self.depth > MOST {
            return Err(error(self.position(), "nested too deep".to_owned()));
        }
        let result = work(self);
        self.depth -= 1;
        result
    }

    /// One node more.
    pub fn count_node(&mut self, position: Position) -> Result<(), TextError> {
        self.nodes += 1;
        within_a_file(self.nodes, position)
    }

    /// The type in words, for a message.
    pub fn told(&self, number: u8) -> String {
        TypeTexts::new(&self.types.entries, &UNICODE).told(number)
    }

    /// `edition N`, or nothing.
    fn edition(&mut self) -> Result<Option<u8>, TextError> {
        if !self.takes(Token::Word("edition")) {
            return Ok(None);
        }
        let number = self.number("the number of an edition", u8::MAX.into())?;
        Ok(u8::try_from(number).ok())
    }

    /// `bay N = term` or `bay N : type = term`, with `start N` before the term or without
    fn bay(&mut self, bay: usize) -> Result<(Option<Start>, Nodes), TextError> {
        let here = self.position();
        if self.peek() != Token::Word("bay") {
            let due = format!("'bay {bay}'");
            let more = if bay > 0 { " or an argument" } else { "" };
            return Err(self.expected(&format!("{due}{more}")));
        }
        self.advance();
        if bay >= limits::MAX_BAYS {
            return Err(error(here, "a recipe has at most 16 bays".to_owned()));
        }
        if self.peek() != Token::Number(&bay.to_string()) {
            return Err(self.expected(&format!("'{bay}', the next bay's number")));
        }
        self.advance();
        let claim = self.position();
        let claimed = if self.takes(Token::Sign(':')) {
            Some(self.type_number()?)
        } else {
            None
        };
        self.expect(Token::Sign('='))?;
        let start = self.start()?;
        let term = self.term()?;
        if let (Some(claimed), Ok(found)) = (claimed, &term.type_number) {
            self.same_type(claim, claimed, *found)?;
        }
        Ok((start, term.nodes.into_iter().unzip()))
    }

    fn same_type(&self, claim: Position, claimed: u8, found: u8) -> Result<(), TextError> {
        if claimed == found {
            return Ok(());
        }
        let (claimed, found) = (self.told(claimed), self.told(found));
        let text = format!("the bay's term is of type {found}, not {claimed}");
        Err(error(claim, text))
    }
}

/// So many nodes or bytes are not more than there can be.
pub fn within_a_file(count: usize, position: Position) -> Result<(), TextError> {
    if count <= MOST {
        return Ok(());
    }
    let text = "this is more than a recipe file can hold".to_owned();
    Err(error(position, text))
}

pub fn error(position: Position, message: String) -> TextError {
    TextError { position, message }
}
