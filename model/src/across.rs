//! What a thread meets that another bay owns (document 02, T-08), for the places that draw and count
//! such steps.

use crate::config::{Component, Configuration};
use crate::context::{find, Found, Place};
use crate::expression::Expression;
use crate::types::Constant;

#[derive(Debug, Clone, Copy, PartialEq, Eq, PartialOrd, Ord)]
pub enum Across {
    /// It binds another bay's future.
    Binds,
    /// It exchanges another bay's cell.
    Exchanges,
    /// It gives a constant the name of another bay's component, and makes a name of its own.
    Makes(Constant),
}

/// What the thread of that number meets so, if anything.
pub fn across(configuration: &Configuration, thread: u64) -> Option<Across> {
    let place = usize::try_from(thread).ok()?;
    let expression = match configuration.components.get(place)? {
        Component::Thread(expression) => expression,
        _ => return None,
    };
    let (function, argument) = match find(expression) {
        Found::Place(_, Place::Meeting(function, argument)) => (function, argument),
        _ => return None,
    };
    let (name, what) = match (&*function, &*argument) {
        (Expression::Name(z), _) => (*z, Across::Binds),
        (Expression::Constant(Constant::Exch, _), _) => return None,
        (Expression::Constant(made, _), Expression::Name(v)) => (*v, Across::Makes(*made)),
        (Expression::Application(_, first), _) => match **first {
            Expression::Name(y) => (y, Across::Exchanges),
            _ => return None,
        },
        _ => return None,
    };
    let fits = match what {
        Across::Binds => matches!(configuration.get(name), Component::OpenHandle(_)),
        Across::Exchanges => matches!(configuration.get(name), Component::Cell(_)),
        Across::Makes(_) => true,
    };
    let owner = |name: usize| configuration.owners[name];
    let another = owner(usize::from(name)) != owner(place);
    (fits && another).then_some(what)
}
