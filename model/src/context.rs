//! Fig. 3: evaluation contexts F ::= [] | F e | v F, with those that pairs and lists add,
//! (F, e) | (v, F) | F :: e | v :: F | case F of .. ⇒ e, and the place in an expression that they give.

use crate::expression::{apply, front, pair, Case, Expression};
use std::rc::Rc;

/// F, from the hole outward.
#[derive(Debug, Clone, Default)]
pub struct Context {
    layers: Vec<Layer>,
}

/// What has two parts that are evaluated, the first one first.
#[derive(Debug, Clone, Copy)]
enum Both {
    Application,
    Pair(u8),
    Front(u8),
}

impl Both {
    fn of(self, first: Rc<Expression>, second: Rc<Expression>) -> Rc<Expression> {
        match self {
            Both::Application => apply(first, second),
            Both::Pair(t) => pair(t, first, second),
            Both::Front(t) => front(t, first, second),
        }
    }
}

#[derive(Debug, Clone)]
enum Layer {
    /// F e, (F, e) or F :: e
    First(Both, Rc<Expression>),
    /// v F, (v, F) or v :: F
    Second(Both, Rc<Expression>),
    /// case F of .. ⇒ e
    Subject(Case),
}

impl Layer {
    fn around(&self, filled: Rc<Expression>) -> Rc<Expression> {
        match self {
            Layer::First(both, second) => both.of(filled, second.clone()),
            Layer::Second(both, first) => both.of(first.clone(), filled),
            Layer::Subject(case) => case.of(filled),
        }
    }
}

impl Context {
    /// F[e]
    pub fn fill(&self, e: Rc<Expression>) -> Rc<Expression> {
        let layers = self.layers.iter();
        layers.fold(e, |filled, layer| layer.around(filled))
    }
}

/// What an expression is: a value, or F[e] for a place e.
pub enum Found {
    Value,
    Place(Context, Place),
}

/// Where a thread goes on.
pub enum Place {
    /// f v, for two values
    Meeting(Rc<Expression>, Rc<Expression>),
    /// a case of a value
    Case(Case),
}

/// The one place that Fig. 3 gives.
pub fn find(e: &Rc<Expression>) -> Found {
    if e.is_value() {
        return Found::Value;
    }
    let mut outer = Vec::new();
    let mut here = e.clone();
    loop {
        match inward(&here) {
            Inward::Layer(layer, inner) => {
                outer.push(layer);
                here = inner;
            }
            Inward::Place(place) => {
                outer.reverse();
                return Found::Place(Context { layers: outer }, place);
            }
        }
    }
}

/// One layer further in, or the place itself.
enum Inward {
    Layer(Layer, Rc<Expression>),
    Place(Place),
}

/// Of an expression that is no value.
fn inward(e: &Expression) -> Inward {
    match e {
        Expression::Application(e1, e2) => {
            let layer = first_that_goes_on(Both::Application, e1, e2);
            layer.unwrap_or_else(|| Inward::Place(Place::Meeting(e1.clone(), e2.clone())))
        }
        Expression::Pair(t, e1, e2) => component(Both::Pair(*t), e1, e2),
        Expression::Front(t, e1, e2) => component(Both::Front(*t), e1, e2),
        Expression::Case(case) if case.subject.is_value() => {
            Inward::Place(Place::Case(case.clone()))
        }
        Expression::Case(case) => Inward::Layer(Layer::Subject(case.clone()), case.subject.clone()),
        _ => unreachable!("everything else is a value"),
    }
}

/// The first of two parts that is no value.
fn first_that_goes_on(both: Both, e1: &Rc<Expression>, e2: &Rc<Expression>) -> Option<Inward> {
    if !e1.is_value() {
        let layer = Layer::First(both, e2.clone());
        return Some(Inward::Layer(layer, e1.clone()));
    }
    let layer = Layer::Second(both, e1.clone());
    (!e2.is_value()).then(|| Inward::Layer(layer, e2.clone()))
}

/// A pair or a front that is no value has a component that is none.
fn component(both: Both, e1: &Rc<Expression>, e2: &Rc<Expression>) -> Inward {
    first_that_goes_on(both, e1, e2).expect("a pair of two values is a value")
}
