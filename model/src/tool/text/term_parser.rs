//! The terms of a text. The type of each subterm is found on the way, for the number of a lambda's
//! type depends on the type of its body.

use crate::nodes::Node;
use crate::table::{entry, MANY, MANY_PAIR, ONCE, ONCE_PAIR};
use crate::tool::text::hints;
use crate::tool::text::node_types::{components, function};
use crate::tool::text::parser::{error, Parser};
use crate::tool::text::spelling::{CONSTANTS, KEPT_WORDS, SETTING};
use crate::tool::text::spot::Spot;
use crate::tool::text::tokens::{Position, TextError, Token};
use crate::types::Shape;

/// A term's nodes with their places, and its type; or why its type cannot be told.
pub struct Term {
    pub nodes: Vec<(Node, Spot)>,
    pub type_number: Result<u8, TextError>,
}

impl<'t> Parser<'t> {
    pub fn term(&mut self) -> Result<Term, TextError> {
        self.deeper(|parser| match parser.peek() {
            Token::Lambda => parser.lambda(),
            Token::Word("case") => parser.case(),
            _ => parser.application(),
        })
    }

    /// `λx:τ. e`, `λ1 x:τ. e`, or with the type of the whole function `λx[τ]. e`
    fn lambda(&mut self) -> Result<Term, TextError> {
        let place = self.position();
        self.count_node(place)?;
        self.advance();
        let once = self.takes(Token::Number("1"));
        let x = self.variable_name()?;
        let whole = match self.peek() {
            Token::Sign('[') if !once => Some(self.bracketed()?),
            Token::Sign(':') => None,
            _ => return Err(self.expected("':' and the variable's type")),
        };
        let parameter = match whole {
            Some(whole) => function(&self.types.entries, whole).map(|(p, _)| p),
            None => {
                self.advance();
                Some(self.type_number()?)
            }
        };
        self.expect(Token::Sign('.'))?;
        self.scope.push((x, parameter));
        let body = self.term();
        self.scope.pop();
        let body = body?;
        let whole = match (whole, parameter) {
            (None, Some(p)) => {
                let kind = if once { ONCE } else { MANY };
                let q = body.type_number?;
                self.number_of_used(entry(kind, p, q), place)?
            }
            (given, _) => given.unwrap_or(0),
        };
        let mut nodes = vec![(Node::Lambda(whole), Spot::of_binder(place, &[x]))];
        nodes.extend(body.nodes);
        let type_number = self.in_table(whole, place);
        Ok(Term { nodes, type_number })
    }

    /// `case e of (x, y) ⇒ e` or `case e of x :: y ⇒ e`
    fn case(&mut self) -> Result<Term, TextError> {
        let place = self.position();
        self.count_node(place)?;
        self.advance();
        let subject = self.term()?;
        if self.peek() != Token::Word("of") {
            return Err(self.expected("'of' or an argument"));
        }
        self.advance();
        let (shape, x, y) = self.pattern()?;
        self.expect(Token::Body)?;
        let whole = subject.type_number.as_ref().ok();
        let types = whole.and_then(|t| components(&self.types.entries, shape, *t));
        let first = types.map(|(first, _)| first);
        let second = types.map(|(_, second)| second);
        self.scope.extend([(x, first), (y, second)]);
        let body = self.term();
        self.scope.truncate(self.scope.len() - 2);
        let body = body?;
        let mut nodes = vec![(Node::Case(shape), Spot::of_binder(place, &[x, y]))];
        nodes.extend(subject.nodes);
        nodes.extend(body.nodes);
        Ok(Term {
            nodes,
            type_number: body.type_number,
        })
    }

    /// `(x, y)` or `x :: y`
    fn pattern(&mut self) -> Result<(Shape, &'t str, &'t str), TextError> {
        let in_brackets = self.takes(Token::Sign('('));
        let x = self.variable_name()?;
        let (shape, between) = match in_brackets {
            true => (Shape::Pair, Token::Sign(',')),
            false => (Shape::List, Token::Front),
        };
        self.expect(between)?;
        let y = self.variable_name()?;
        if in_brackets {
            self.expect(Token::Sign(')'))?;
        }
        Ok((shape, x, y))
    }

    fn variable_name(&mut self) -> Result<&'t str, TextError> {
        match self.peek() {
            Token::Word(x) if !KEPT_WORDS.contains(&x) && setting_of(x).is_none() => {
                self.advance();
                Ok(x)
            }
            _ => Err(self.expected("the name of a variable")),
        }
    }

    fn in_table(&self, number: u8, place: Position) -> Result<u8, TextError> {
        let there = usize::from(number) < self.types.entries.len();
        let text = || format!("there is no t{number}");
        there.then_some(number).ok_or_else(|| error(place, text()))
    }

    /// Terms side by side: the first applied to the second, the outcome to the third, and so on.
    fn application(&mut self) -> Result<Term, TextError> {
        let place = self.position();
        let mut applied = self.atom()?;
        while self.atom_follows() {
            self.count_node(place)?;
            let argument = self.atom()?;
            let type_number = self.result_type(&applied, place);
            let mut nodes = vec![(Node::Application, Spot::of(place))];
            nodes.extend(applied.nodes);
            nodes.extend(argument.nodes);
            applied = Term { nodes, type_number };
        }
        Ok(applied)
    }

    fn result_type(&self, applied: &Term, place: Position) -> Result<u8, TextError> {
        let whole = applied.type_number.clone()?;
        let result = function(&self.types.entries, whole).map(|(_, q)| q);
        let text = || format!("this is applied, and is {}, no function", self.told(whole));
        result.ok_or_else(|| error(place, text()))
    }

    fn atom_follows(&self) -> bool {
        match self.peek() {
            Token::Word("edition" | "bay" | "types" | "ref" | "num" | "case" | "of") => false,
            Token::Word(_) | Token::Number(_) | Token::Sign('(' | '@') => true,
            _ => false,
        }
    }

    fn atom(&mut self) -> Result<Term, TextError> {
        let place = self.position();
        if self.takes(Token::Sign('(')) {
            return self.in_brackets(place);
        }
        self.count_node(place)?;
        let (node, type_number) = self.leaf(place)?;
        Ok(Term {
            nodes: vec![(node, Spot::of(place))],
            type_number,
        })
    }

    /// After `(`: a term, `e, e` or `e :: e`; the last two with their type in brackets or without.
    fn in_brackets(&mut self, place: Position) -> Result<Term, TextError> {
        let first = self.term()?;
        let shape = match self.peek() {
            Token::Sign(',') => Some(Shape::Pair),
            Token::Front => Some(Shape::List),
            Token::Sign(')') => None,
            _ => return Err(self.expected("')' or an argument")),
        };
        self.advance();
        match shape {
            Some(shape) => self.compound(shape, first, place),
            None => Ok(first),
        }
    }

    /// After the sign between the components.
    fn compound(&mut self, shape: Shape, first: Term, place: Position) -> Result<Term, TextError> {
        self.count_node(place)?;
        let second = self.term()?;
        if self.peek() != Token::Sign(')') {
            return Err(self.expected("')' or an argument"));
        }
        self.advance();
        let whole = match self.peek() {
            Token::Sign('[') => self.bracketed()?,
            _ => self.type_of_compound(shape, &first, &second, place)?,
        };
        let node = match shape {
            Shape::Pair => Node::Pair(whole),
            Shape::List => Node::Front(whole),
        };
        let mut nodes = vec![(node, Spot::of(place))];
        nodes.extend(first.nodes);
        nodes.extend(second.nodes);
        let type_number = self.in_table(whole, place);
        Ok(Term { nodes, type_number })
    }

    /// Without a type in the text: a pair is usable once where a component is, and else many times; a
    /// list has the type of its rest.
    fn type_of_compound(
        &mut self,
        shape: Shape,
        first: &Term,
        second: &Term,
        place: Position,
    ) -> Result<u8, TextError> {
        let q = second.type_number.clone()?;
        if shape == Shape::List {
            return Ok(q);
        }
        let p = first.type_number.clone()?;
        let is_once = |t: u8| self.types.entries[usize::from(t)].is_once();
        let kind = match is_once(p) || is_once(q) {
            true => ONCE_PAIR,
            false => MANY_PAIR,
        };
        self.number_of_used(entry(kind, p, q), place)
    }

    fn leaf(&mut self, place: Position) -> Result<(Node, Result<u8, TextError>), TextError> {
        match self.peek() {
            Token::Number(_) => {
                let value = self.number("a num", u16::MAX)?;
                Ok((Node::Num(value), Ok(1)))
            }
            Token::Sign('@') => {
                self.advance();
                let index = self.number("an index", u8::MAX.into())?;
                self.by_index(index as u8, place)
            }
            Token::Word("unit") => {
                self.advance();
                Ok((Node::Unit, Ok(0)))
            }
            Token::Word(word) => self.word(word, place),
            _ => Err(self.expected("a term")),
        }
    }

    /// A constant, a setting or a variable.
    fn word(
        &mut self,
        word: &str,
        place: Position,
    ) -> Result<(Node, Result<u8, TextError>), TextError> {
        if let Some((_, constant)) = CONSTANTS.iter().find(|(name, _)| *name == word) {
            self.advance();
            if self.peek() != Token::Sign('[') {
                return Err(self.expected(&format!("'[' and the type of {word}")));
            }
            let whole = self.bracketed()?;
            let node = Node::Constant(*constant, whole);
            return Ok((node, self.in_table(whole, place)));
        }
        if KEPT_WORDS.contains(&word) {
            return Err(self.expected("a term"));
        }
        if let Some(bay) = setting_of(word) {
            let bay = u8::try_from(bay).map_err(|_| self.expected("a setting of a bay"))?;
            self.advance();
            return Ok((Node::Name(bay), Ok(2)));
        }
        let inner = self.scope.iter().rev().position(|(x, _)| *x == word);
        let unbound = || format!("no λ here binds '{word}'{}", hints::of_word(word));
        let index = inner.ok_or_else(|| error(place, unbound()))?;
        let index = u8::try_from(index);
        let index = index.map_err(|_| error(place, format!("'{word}' is bound too far out")))?;
        self.advance();
        self.by_index(index, place)
    }

    fn by_index(
        &self,
        index: u8,
        place: Position,
    ) -> Result<(Node, Result<u8, TextError>), TextError> {
        let bound = self.scope.iter().rev().nth(usize::from(index));
        let type_number = bound.and_then(|(_, parameter)| *parameter);
        let text = || "the type of this variable cannot be told".to_owned();
        let type_number = type_number.ok_or_else(|| error(place, text()));
        Ok((Node::Variable(index), type_number))
    }
}

/// The bay of a word such as `setting3`.
fn setting_of(word: &str) -> Option<usize> {
    let digits = word.strip_prefix(SETTING)?;
    let plain = digits.chars().all(|c| c.is_ascii_digit());
    plain.then(|| digits.parse().ok())?
}
