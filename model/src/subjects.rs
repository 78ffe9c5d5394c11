//! What a case has as its subject, for the places that draw and count cases of each.

use crate::config::{Component, Configuration};
use crate::context::{find, Found, Place};
use crate::expression::{Case, Expression};

#[derive(Debug, Clone, Copy, PartialEq, Eq, PartialOrd, Ord)]
pub enum Subject {
    Pair,
    Front,
    DoneThread,
    UnfinishedThread,
    Future,
    Cell,
    OpenHandle,
    UsedHandle,
    OtherValue,
}

pub const ALL: [Subject; 9] = [
    Subject::Pair,
    Subject::Front,
    Subject::DoneThread,
    Subject::UnfinishedThread,
    Subject::Future,
    Subject::Cell,
    Subject::OpenHandle,
    Subject::UsedHandle,
    Subject::OtherValue,
];

/// The case that the thread of that number is at, if it is at one.
pub fn case_at(configuration: &Configuration, thread: u64) -> Option<Case> {
    let place = usize::try_from(thread).ok()?;
    let expression = match configuration.components.get(place)? {
        Component::Thread(expression) => expression,
        _ => return None,
    };
    match find(expression) {
        Found::Place(_, Place::Case(case)) => Some(case),
        _ => None,
    }
}

/// What the case has as its subject, a value.
pub fn subject_of(configuration: &Configuration, case: &Case) -> Subject {
    let name = match &*case.subject {
        Expression::Pair(..) => return Subject::Pair,
        Expression::Front(..) => return Subject::Front,
        Expression::Name(name) => *name,
        _ => return Subject::OtherValue,
    };
    match configuration.get(name) {
        Component::Thread(e) if e.is_value() => Subject::DoneThread,
        Component::Thread(_) => Subject::UnfinishedThread,
        Component::Future => Subject::Future,
        Component::Cell(_) => Subject::Cell,
        Component::OpenHandle(_) => Subject::OpenHandle,
        Component::UsedHandle => Subject::UsedHandle,
    }
}
