//! A term as one line of text: `λx:τ. e`, application by juxtaposition, `(e, e)[τ]`, few brackets.

use crate::nodes::{end_of_term, Node};
use crate::table::ONCE;
use crate::tool::outline::{Binder, Outline};
use crate::tool::text::node_types::{function, node_types, variable_type};
use crate::tool::text::spelling::{constant_name, SETTING};
use crate::tool::text::spot::{self, Spot};
use crate::tool::text::type_texts::TypeTexts;
use crate::types::Shape;

/// Where a term stands, for the brackets.
#[derive(Clone, Copy, PartialEq, Eq)]
pub enum Standing {
    Alone,
    Function,
    Argument,
    /// Of a case.
    Subject,
}

pub struct Printer<'a> {
    pub nodes: &'a [Node],
    pub outline: Outline,
    pub types: Vec<Option<u8>>,
    pub texts: &'a TypeTexts<'a>,
    /// Of the text that the term stands in, if it stands in one.
    pub spots: &'a [Spot],
}

impl<'a> Printer<'a> {
    /// For a whole term.
    pub fn new(nodes: &'a [Node], texts: &'a TypeTexts<'a>) -> Printer<'a> {
        Printer::in_text(nodes, texts, &[])
    }

    /// For a whole term of a text, by its names and with the types in full.
    pub fn in_text(nodes: &'a [Node], texts: &'a TypeTexts<'a>, spots: &'a [Spot]) -> Printer<'a> {
        let outline = Outline::of(nodes);
        let types = node_types(texts.entries, nodes, &outline);
        Printer {
            nodes,
            outline,
            types,
            texts,
            spots,
        }
    }

    /// The term at that place in one line.
    pub fn line(&self, at: usize, standing: Standing) -> String {
        let mut out = String::new();
        self.write(at, standing, &mut out);
        out
    }

    /// Whether a term needs brackets where it stands.
    pub fn has_brackets(&self, at: usize, standing: Standing) -> bool {
        match self.nodes[at] {
            Node::Lambda(_) | Node::Case(_) => standing != Standing::Alone,
            Node::Application => standing == Standing::Argument,
            _ => false,
        }
    }

    fn write(&self, at: usize, standing: Standing, out: &mut String) {
        let brackets = self.has_brackets(at, standing);
        if brackets {
            out.push('(');
        }
        match self.nodes[at] {
            Node::Application => {
                self.write(at + 1, Standing::Function, out);
                out.push(' ');
                self.write(self.second(at), Standing::Argument, out);
            }
            Node::Lambda(_) => {
                out.push_str(&self.head(at));
                out.push(' ');
                self.write(at + 1, Standing::Alone, out);
            }
            Node::Pair(_) | Node::Front(_) => {
                out.push('(');
                self.write(at + 1, Standing::Alone, out);
                out.push_str(self.between(at));
                out.push(' ');
                self.write(self.second(at), Standing::Alone, out);
                out.push_str(&self.end(at));
            }
            Node::Case(_) => {
                out.push_str("case ");
                self.write(at + 1, Standing::Subject, out);
                out.push_str(&self.pattern(at));
                out.push(' ');
                self.write(self.second(at), Standing::Alone, out);
            }
            _ => out.push_str(&self.leaf(at)),
        }
        if brackets {
            out.push(')');
        }
    }

    /// The sign between the components of the pair or front at that place.
    pub fn between(&self, at: usize) -> &'static str {
        match self.nodes[at] {
            Node::Front(_) => " ::",
            _ => ",",
        }
    }

    /// What stands after the components: `)[t5]`
    pub fn end(&self, at: usize) -> String {
        let whole = self.nodes[at].type_number().unwrap_or(0);
        format!(")[{}]", self.bracketed(whole))
    }

    /// What stands between the subject and the body of the case at that place: ` of (x, y) ⇒`
    pub fn pattern(&self, at: usize) -> String {
        let [x, y] = [0, 1].map(|place| self.variable_name(Binder { node: at, place }));
        let body = self.texts.spelling.body;
        match self.nodes[at] {
            Node::Case(Shape::List) => format!(" of {x} :: {y} {body}"),
            _ => format!(" of ({x}, {y}) {body}"),
        }
    }

    /// Where the second subterm of the node at that place begins.
    pub fn second(&self, at: usize) -> usize {
        end_of_term(self.nodes, at + 1)
    }

    /// `λx:τ.` for a function usable many times, `λ1 x:τ.` for one usable once; where the body is
    /// not of the result's type, the type of the whole function: `λx[t5].`
    pub fn head(&self, at: usize) -> String {
        let lambda = self.texts.spelling.lambda;
        let x = self.variable_name(Binder::of_lambda(at));
        let whole = self.nodes[at].type_number().unwrap_or(0);
        match function(self.texts.entries, whole) {
            Some((p, q)) if self.types[at + 1] == Some(q) => {
                let once = self.texts.entries[usize::from(whole)].kind == ONCE;
                let mark = if once { "1 " } else { "" };
                format!("{lambda}{mark}{x}:{}.", self.type_text(p))
            }
            _ => format!("{lambda}{x}[t{whole}]."),
        }
    }

    fn variable_name(&self, binder: Binder) -> String {
        spot::variable(self.spots, &self.outline, binder)
    }

    pub fn variable_type(&self, binder: Binder) -> Option<u8> {
        variable_type(self.texts.entries, self.nodes, &self.types, binder)
    }

    /// A type as the text has it, or by its name.
    fn type_text(&self, number: u8) -> String {
        if self.spots.is_empty() {
            return self.texts.name(number);
        }
        self.texts.told(number)
    }

    /// A constant's type as the text has it, or by its number.
    fn bracketed(&self, number: u8) -> String {
        if self.spots.is_empty() {
            return format!("t{number}");
        }
        self.texts.told(number)
    }

    fn leaf(&self, at: usize) -> String {
        match self.nodes[at] {
            Node::Variable(index) => match self.outline.binder(at, index) {
                Some(binder) => self.variable_name(binder),
                None => format!("@{index}"),
            },
            Node::Num(value) => value.to_string(),
            Node::Constant(c, t) => format!("{}[{}]", constant_name(c), self.bracketed(t)),
            Node::Name(bay) => format!("{SETTING}{bay}"),
            _ => "unit".to_owned(),
        }
    }
}
