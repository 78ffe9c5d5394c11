//! Figs. 1 and 10: expressions as trees. Variables have names of their own, so that an index into
//! the binders around it is met only where bytes are read and written.

use crate::nodes::Node;
use crate::types::{Constant, Shape};
use std::rc::Rc;

/// A variable of Fig. 1. Below `FIRST_BOUND`: bound nowhere in the term.
#[derive(Debug, Clone, Copy, PartialEq, Eq)]
pub struct Variable(pub u32);

const FIRST_BOUND: u32 = 256;

/// e ::= x | c | λx.e | e₁ e₂ | (e₁, e₂) | e₁ :: e₂ | case e₁ of (x, y) ⇒ e₂ | case e₁ of x :: y ⇒ e₂,
/// with the names of a configuration apart from the variables, and the type numbers kept as they
/// stand in the bytes.
#[derive(Debug, Clone, PartialEq, Eq)]
pub enum Expression {
    Variable(Variable),
    Lambda(u8, Variable, Rc<Expression>),
    Application(Rc<Expression>, Rc<Expression>),
    Unit,
    Num(u16),
    Constant(Constant, u8),
    Name(u8),
    Pair(u8, Rc<Expression>, Rc<Expression>),
    /// The front of a list: its first element and the rest.
    Front(u8, Rc<Expression>, Rc<Expression>),
    Case(Case),
}

/// Takes its subject apart: x is the first component, y the second.
#[derive(Debug, Clone, PartialEq, Eq)]
pub struct Case {
    pub shape: Shape,
    pub subject: Rc<Expression>,
    pub x: Variable,
    pub y: Variable,
    pub body: Rc<Expression>,
}

impl Case {
    pub fn binds(&self, variable: Variable) -> bool {
        variable == self.x || variable == self.y
    }

    /// The same case of another subject.
    pub fn of(&self, subject: Rc<Expression>) -> Rc<Expression> {
        Rc::new(Expression::Case(Case {
            subject,
            ..self.clone()
        }))
    }
}

impl Expression {
    /// The tree of a term; each binder gets variables that no other binder of the term has.
    pub fn of_nodes(nodes: &[Node]) -> Expression {
        Reader { nodes, at: 0 }.read(&mut Vec::new())
    }

    /// The nodes of the tree, root first.
    pub fn nodes(&self) -> Vec<Node> {
        let mut out = Vec::new();
        self.write(&mut Vec::new(), &mut out);
        out
    }

    fn write(&self, scope: &mut Vec<Variable>, out: &mut Vec<Node>) {
        match self {
            Expression::Variable(x) => out.push(Node::Variable(index_of(*x, scope))),
            Expression::Lambda(t, x, body) => {
                out.push(Node::Lambda(*t));
                scope.push(*x);
                body.write(scope, out);
                scope.pop();
            }
            Expression::Application(function, argument) => {
                out.push(Node::Application);
                function.write(scope, out);
                argument.write(scope, out);
            }
            Expression::Unit => out.push(Node::Unit),
            Expression::Num(value) => out.push(Node::Num(*value)),
            Expression::Constant(c, t) => out.push(Node::Constant(*c, *t)),
            Expression::Name(y) => out.push(Node::Name(*y)),
            Expression::Pair(t, first, second) => {
                out.push(Node::Pair(*t));
                first.write(scope, out);
                second.write(scope, out);
            }
            Expression::Front(t, first, rest) => {
                out.push(Node::Front(*t));
                first.write(scope, out);
                rest.write(scope, out);
            }
            Expression::Case(case) => {
                out.push(Node::Case(case.shape));
                case.subject.write(scope, out);
                scope.extend([case.x, case.y]);
                case.body.write(scope, out);
                scope.truncate(scope.len() - 2);
            }
        }
    }

    /// "every node of every expression counted"
    pub fn size(&self) -> usize {
        match self {
            Expression::Lambda(_, _, body) => 1 + body.size(),
            Expression::Application(e1, e2)
            | Expression::Pair(_, e1, e2)
            | Expression::Front(_, e1, e2) => 1 + e1.size() + e2.size(),
            Expression::Case(case) => 1 + case.subject.size() + case.body.size(),
            _ => 1,
        }
    }

    /// v ::= x | c | λx.e | exch v | (v₁, v₂) | v₁ :: v₂
    pub fn is_value(&self) -> bool {
        match self {
            Expression::Application(function, argument) => {
                matches!(**function, Expression::Constant(Constant::Exch, _)) && argument.is_value()
            }
            Expression::Pair(_, e1, e2) | Expression::Front(_, e1, e2) => {
                e1.is_value() && e2.is_value()
            }
            Expression::Case(_) => false,
            _ => true,
        }
    }

    /// e[v/x] for a value without free variables, so that nothing can be captured.
    pub fn substitute(&self, x: Variable, value: &Rc<Expression>) -> Rc<Expression> {
        match self {
            Expression::Variable(y) if *y == x => value.clone(),
            Expression::Lambda(t, y, body) if *y != x => {
                Rc::new(Expression::Lambda(*t, *y, body.substitute(x, value)))
            }
            Expression::Application(function, argument) => {
                apply(function.substitute(x, value), argument.substitute(x, value))
            }
            Expression::Pair(t, e1, e2) => {
                pair(*t, e1.substitute(x, value), e2.substitute(x, value))
            }
            Expression::Front(t, e1, e2) => {
                front(*t, e1.substitute(x, value), e2.substitute(x, value))
            }
            Expression::Case(case) => {
                let body = match case.binds(x) {
                    true => case.body.clone(),
                    false => case.body.substitute(x, value),
                };
                let subject = case.subject.substitute(x, value);
                Rc::new(Expression::Case(Case {
                    subject,
                    body,
                    ..case.clone()
                }))
            }
            _ => Rc::new(self.clone()),
        }
    }
}

/// e₁ e₂
pub fn apply(function: Rc<Expression>, argument: Rc<Expression>) -> Rc<Expression> {
    Rc::new(Expression::Application(function, argument))
}

/// (e₁, e₂)
pub fn pair(t: u8, first: Rc<Expression>, second: Rc<Expression>) -> Rc<Expression> {
    Rc::new(Expression::Pair(t, first, second))
}

/// e₁ :: e₂
pub fn front(t: u8, first: Rc<Expression>, rest: Rc<Expression>) -> Rc<Expression> {
    Rc::new(Expression::Front(t, first, rest))
}

/// The index of a variable: 0 for the one bound last.
fn index_of(x: Variable, scope: &[Variable]) -> u8 {
    let inner = scope.iter().rev().position(|y| *y == x);
    let index = inner.unwrap_or(scope.len() + x.0 as usize);
    u8::try_from(index).expect("an index fits its byte, for a step never deepens a variable")
}

struct Reader<'a> {
    nodes: &'a [Node],
    at: usize,
}

impl Reader<'_> {
    fn read(&mut self, scope: &mut Vec<Variable>) -> Expression {
        let here = self.at;
        self.at += 1;
        match self.nodes[here] {
            Node::Variable(index) => Expression::Variable(variable_at(index, scope)),
            Node::Lambda(t) => {
                let [x, _] = variables_of(here);
                let body = self.read_under(scope, &[x]);
                Expression::Lambda(t, x, body)
            }
            Node::Application => {
                let (function, argument) = self.read_two(scope);
                Expression::Application(function, argument)
            }
            Node::Pair(t) => {
                let (first, second) = self.read_two(scope);
                Expression::Pair(t, first, second)
            }
            Node::Front(t) => {
                let (first, rest) = self.read_two(scope);
                Expression::Front(t, first, rest)
            }
            Node::Case(shape) => {
                let [x, y] = variables_of(here);
                let subject = Rc::new(self.read(scope));
                // index 0 is the second component, so it is bound last
                let body = self.read_under(scope, &[x, y]);
                Expression::Case(Case {
                    shape,
                    subject,
                    x,
                    y,
                    body,
                })
            }
            Node::Unit => Expression::Unit,
            Node::Num(value) => Expression::Num(value),
            Node::Constant(c, t) => Expression::Constant(c, t),
            Node::Name(y) => Expression::Name(y),
        }
    }

    fn read_two(&mut self, scope: &mut Vec<Variable>) -> (Rc<Expression>, Rc<Expression>) {
        let first = Rc::new(self.read(scope));
        (first, Rc::new(self.read(scope)))
    }

    /// A subterm that has these variables more.
    fn read_under(&mut self, scope: &mut Vec<Variable>, more: &[Variable]) -> Rc<Expression> {
        let outside = scope.len();
        scope.extend(more);
        let body = Rc::new(self.read(scope));
        scope.truncate(outside);
        body
    }
}

/// Two variables that belong to the node at that place alone.
fn variables_of(place: usize) -> [Variable; 2] {
    let first = FIRST_BOUND + 2 * u32::try_from(place).expect("a small term");
    [Variable(first), Variable(first + 1)]
}

fn variable_at(index: u8, scope: &[Variable]) -> Variable {
    let index = usize::from(index);
    match scope.len().checked_sub(index + 1) {
        Some(level) => scope[level],
        None => Variable(u32::try_from(index - scope.len()).expect("an index is a byte")),
    }
}
