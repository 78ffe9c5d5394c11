//! Fig. 5: the seven rules on configurations, the two that take a pair or a list apart, and what
//! stands in their way.

use crate::config::{Component, Configuration};
use crate::context::{find, Context, Found, Place};
use crate::expression::{apply, Case, Expression};
use crate::rules;
use crate::types::{Constant, Shape};
use std::rc::Rc;

/// What a thread of a configuration can do, room left aside.
#[derive(Debug, Clone, PartialEq, Eq)]
pub enum Move {
    /// The rule, numbered in Fig. 5's order, and the configuration after it.
    Rule(u8, Configuration),
    /// The thread's expression is a value.
    Done,
    /// The thread needs the value of this name.
    Waiting(u8),
    /// A used handle is applied.
    UsedHandle,
    /// Two values meet, or a case and its subject, that nothing fits.
    WrongValue,
}

/// A thread x ← F[e] about to move at its place e.
struct Mover<'a> {
    configuration: &'a Configuration,
    thread: usize,
    context: Context,
}

/// The move of that thread.
pub fn move_of(configuration: &Configuration, thread: usize) -> Move {
    let expression = match &configuration.components[thread] {
        Component::Thread(expression) => expression,
        _ => unreachable!("only a thread moves"),
    };
    let (context, place) = match find(expression) {
        Found::Value => return Move::Done,
        Found::Place(context, place) => (context, place),
    };
    let mover = Mover {
        configuration,
        thread,
        context,
    };
    match place {
        Place::Meeting(function, argument) => mover.apply(&function, &argument),
        Place::Case(case) => mover.take_apart(&case),
    }
}

impl Mover<'_> {
    /// f v
    fn apply(&self, function: &Expression, v: &Rc<Expression>) -> Move {
        match function {
            Expression::Lambda(_, x, body) => self.beta(body.substitute(*x, v)),
            Expression::Constant(Constant::Thread, _) => self.thread_new(v),
            Expression::Constant(Constant::Handle, _) => self.handle_new(v),
            Expression::Constant(Constant::Cell, _) => self.cell_new(v),
            Expression::Name(y) => self.apply_name(*y, v),
            Expression::Application(exch, first) => self.exchange(exch, first, v),
            _ => Move::WrongValue,
        }
    }

    /// The thread's expression with another expression at the place.
    fn goes_on(&self, e: Rc<Expression>) -> Configuration {
        let expression = self.context.fill(e);
        let changed = Component::Thread(expression);
        self.configuration.clone().with(self.thread, changed)
    }

    /// m, the number that a new name takes. Past the limit its byte is never read.
    fn new_name(&self) -> u8 {
        self.configuration.names() as u8
    }

    /// "a new name [belongs] to the creating thread's bay", wherever the value applied came from.
    fn creators_bay(&self) -> u8 {
        self.configuration.owners[self.thread]
    }

    /// (BETA) E[(λy.e) v] → E[e[v/y]]
    fn beta(&self, substituted: Rc<Expression>) -> Move {
        Move::Rule(rules::BETA, self.goes_on(substituted))
    }

    /// (THREAD.NEW) E[thread v] → E[y] | y ← v y
    fn thread_new(&self, v: &Rc<Expression>) -> Move {
        let y = Rc::new(Expression::Name(self.new_name()));
        let next = self.goes_on(y.clone());
        let thread = Component::Thread(apply(v.clone(), y));
        Move::Rule(rules::THREAD_NEW, next.and(thread, self.creators_bay()))
    }

    /// (HANDLE.NEW) E[handle v] → E[v y z] | z h y, y taking m and z taking m + 1
    fn handle_new(&self, v: &Rc<Expression>) -> Move {
        let y = self.new_name();
        let future = Rc::new(Expression::Name(y));
        let handle = Rc::new(Expression::Name(y.wrapping_add(1)));
        let applied = apply(apply(v.clone(), future), handle);
        let bay = self.creators_bay();
        let next = self.goes_on(applied).and(Component::Future, bay);
        Move::Rule(rules::HANDLE_NEW, next.and(Component::OpenHandle(y), bay))
    }

    /// (CELL.NEW) E[cell v] → E[y] | y c v
    fn cell_new(&self, v: &Rc<Expression>) -> Move {
        let y = Rc::new(Expression::Name(self.new_name()));
        let cell = Component::Cell(v.clone());
        Move::Rule(
            rules::CELL_NEW,
            self.goes_on(y).and(cell, self.creators_bay()),
        )
    }

    /// A name at the function of an application: F[[] v].
    fn apply_name(&self, y: u8, v: &Rc<Expression>) -> Move {
        match self.configuration.get(y) {
            Component::Thread(e) => {
                let replaced = |value| apply(value, v.clone());
                self.future_deref(y, e, replaced)
            }
            Component::Future => Move::Waiting(y),
            Component::OpenHandle(future) => self.handle_bind(y, *future, v),
            Component::UsedHandle => Move::UsedHandle,
            Component::Cell(_) => Move::WrongValue,
        }
    }

    /// (FUTURE.DEREF) Ef[y] | y ← v → Ef[v] | y ← v, once the thread y is done.
    fn future_deref(
        &self,
        y: u8,
        e: &Rc<Expression>,
        replaced: impl Fn(Rc<Expression>) -> Rc<Expression>,
    ) -> Move {
        if !e.is_value() {
            return Move::Waiting(y);
        }
        Move::Rule(rules::FUTURE_DEREF, self.goes_on(replaced(e.clone())))
    }

    /// (HANDLE.BIND) E[z v] | z h y → E[unit] | y ← v | z h •
    fn handle_bind(&self, z: u8, y: u8, v: &Rc<Expression>) -> Move {
        let next = self.goes_on(Rc::new(Expression::Unit));
        let next = next.with(usize::from(y), Component::Thread(v.clone()));
        Move::Rule(
            rules::HANDLE_BIND,
            next.with(usize::from(z), Component::UsedHandle),
        )
    }

    /// The first argument of a full exch: F[exch [] v].
    fn exchange(&self, exch: &Rc<Expression>, first: &Expression, v: &Rc<Expression>) -> Move {
        let y = match *first {
            Expression::Name(y) => y,
            _ => return Move::WrongValue,
        };
        match self.configuration.get(y) {
            Component::Thread(e) => {
                let full = |value| apply(apply(exch.clone(), value), v.clone());
                self.future_deref(y, e, full)
            }
            Component::Future => Move::Waiting(y),
            Component::Cell(old) => self.cell_exch(y, old.clone(), v),
            Component::OpenHandle(_) | Component::UsedHandle => Move::WrongValue,
        }
    }

    /// (CELL.EXCH) E[exch y v₁] | y c v₂ → E[v₂] | y c v₁
    fn cell_exch(&self, y: u8, old: Rc<Expression>, v: &Rc<Expression>) -> Move {
        let next = self.goes_on(old);
        Move::Rule(
            rules::CELL_EXCH,
            next.with(usize::from(y), Component::Cell(v.clone())),
        )
    }

    /// A case of a value: F[case [] of .. ⇒ e] needs the value as F[exch [] v] does.
    fn take_apart(&self, case: &Case) -> Move {
        match (case.shape, &*case.subject) {
            (Shape::Pair, Expression::Pair(_, v1, v2)) => {
                self.taken_apart(rules::CASE_PAIR, case, v1, v2)
            }
            (Shape::List, Expression::Front(_, v1, v2)) => {
                self.taken_apart(rules::CASE_LIST, case, v1, v2)
            }
            (_, Expression::Name(y)) => self.name_as_subject(*y, case),
            _ => Move::WrongValue,
        }
    }

    /// (PAIR.CASE) E[case (v₁, v₂) of (x, y) ⇒ e] → E[e[v₁/x][v₂/y]], and (LIST.CASE) for v₁ :: v₂
    fn taken_apart(&self, rule: u8, case: &Case, v1: &Rc<Expression>, v2: &Rc<Expression>) -> Move {
        let body = case.body.substitute(case.x, v1);
        Move::Rule(rule, self.goes_on(body.substitute(case.y, v2)))
    }

    fn name_as_subject(&self, y: u8, case: &Case) -> Move {
        match self.configuration.get(y) {
            Component::Thread(e) => self.future_deref(y, e, |value| case.of(value)),
            Component::Future => Move::Waiting(y),
            Component::Cell(_) | Component::OpenHandle(_) | Component::UsedHandle => {
                Move::WrongValue
            }
        }
    }
}
