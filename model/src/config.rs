//! Fig. 1: configurations. A configuration is the list of its components, by name; the order of
//! the list is the numbering of document 01.

use crate::expression::Expression;
use crate::limits;
use std::rc::Rc;

/// A component, and a future that an open handle has not bound yet.
#[derive(Debug, Clone, PartialEq, Eq)]
pub enum Component {
    /// x ← e
    Thread(Rc<Expression>),
    /// x c v
    Cell(Rc<Expression>),
    /// y h x, where x is the number of the future
    OpenHandle(u8),
    /// y h •
    UsedHandle,
    /// the x of some y h x
    Future,
}

impl Component {
    pub fn expression(&self) -> Option<&Rc<Expression>> {
        match self {
            Component::Thread(e) | Component::Cell(e) => Some(e),
            _ => None,
        }
    }
}

#[derive(Debug, Clone, PartialEq, Eq, Default)]
pub struct Configuration {
    pub components: Vec<Component>,
    /// "Every name knows its bay": the owning bay of each name (document 02, T-08). "an open handle has
    /// the owner of its future".
    pub owners: Vec<u8>,
}

impl Configuration {
    /// These components, all of one bay.
    pub fn of_bay(bay: u8, components: Vec<Component>) -> Configuration {
        let owners = vec![bay; components.len()];
        Configuration { components, owners }
    }

    /// m, the number of names.
    pub fn names(&self) -> usize {
        self.components.len()
    }

    pub fn get(&self, name: u8) -> &Component {
        &self.components[usize::from(name)]
    }

    /// The open handles that cells hold.
    pub fn kept_handles(&self) -> Vec<u8> {
        let held = self
            .components
            .iter()
            .filter_map(|component| match component {
                Component::Cell(value) => match **value {
                    Expression::Name(held) => Some(held),
                    _ => None,
                },
                _ => None,
            });
        let is_open = |name: &u8| matches!(self.get(*name), Component::OpenHandle(_));
        held.filter(is_open).collect()
    }

    /// "every node of every expression counted"
    pub fn nodes(&self) -> usize {
        let expressions = self.components.iter().filter_map(Component::expression);
        expressions.map(|e| e.size()).sum()
    }

    /// "At most 256 names and 4,096 nodes in all"
    pub fn is_within_limits(&self) -> bool {
        self.names() <= limits::MAX_NAMES && self.nodes() <= limits::MAX_NODES
    }

    /// The configuration with another component under that name, which keeps its owner: so does "a
    /// future or handle .. when used", whoever uses it, and a cell that is exchanged.
    pub fn with(mut self, name: usize, component: Component) -> Configuration {
        self.components[name] = component;
        self
    }

    /// The configuration with one name more, m, of that bay.
    pub fn and(mut self, component: Component, owner: u8) -> Configuration {
        self.components.push(component);
        self.owners.push(owner);
        self
    }
}
