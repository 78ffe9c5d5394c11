//! The simplest term of a type: what is made where there is no room for another.

use super::{Duties, TermMaker};
use crate::limits;
use crate::nodes::Node;
use crate::types::{Constant, Multiplicity, Shape};

impl TermMaker<'_> {
    /// A small term of the type that does the duties one after the other; what may be the term itself
    /// comes last.
    pub(super) fn simplest(&mut self, goal: u8, mut duties: Duties, nesting: usize) -> Option<()> {
        if nesting > limits::MAX_NESTING {
            return None;
        }
        let other = duties.iter().rposition(|duty| self.scope[*duty] != goal);
        let next = other.or(duties.len().checked_sub(1));
        match next.map(|place| duties.remove(place)) {
            None => self.simplest_free(goal, nesting),
            Some(duty) => self.discharge(goal, duty, duties, nesting),
        }
    }

    /// x : α →1 β is applied to a simple argument, and the result dropped or used.
    fn discharge(&mut self, goal: u8, duty: usize, rest: Duties, nesting: usize) -> Option<()> {
        if rest.is_empty() && self.scope[duty] == goal {
            self.nodes.push(self.variable_node(duty));
            return Some(());
        }
        if self
            .table
            .components(Shape::Pair, self.scope[duty])
            .is_some()
        {
            return self.discharge_pair(goal, duty, rest, nesting);
        }
        if self.table.is_once_list(self.scope[duty]) {
            return self.discharge_into_cell(goal, duty, rest, nesting);
        }
        let (_, parameter, result) = self.table.function_parts(self.scope[duty])?;
        if rest.is_empty() && result == goal {
            self.nodes.push(Node::Application);
            self.nodes.push(self.variable_node(duty));
            return self.simplest(parameter, Vec::new(), nesting + 1);
        }
        let wanted = self.multiplicity_for(&rest);
        let function = self.table.function(wanted, result, goal);
        let function = match function {
            None => self.table.function(Multiplicity::Once, result, goal)?,
            Some(function) => function,
        };
        self.nodes.push(Node::Application);
        self.simplest_lambda(function, rest, nesting + 1)?;
        self.nodes.push(Node::Application);
        self.nodes.push(self.variable_node(duty));
        self.simplest(parameter, Vec::new(), nesting + 2)
    }

    /// case x of (y, z) ⇒ e
    fn discharge_pair(
        &mut self,
        goal: u8,
        duty: usize,
        mut rest: Duties,
        nesting: usize,
    ) -> Option<()> {
        let (first, second) = self.table.components(Shape::Pair, self.scope[duty])?;
        self.nodes.push(Node::Case(Shape::Pair));
        self.nodes.push(self.variable_node(duty));
        self.bind(first, &mut rest);
        self.bind(second, &mut rest);
        let made = self.simplest(goal, rest, nesting + 1);
        self.scope.truncate(self.scope.len() - 2);
        made
    }

    /// (λc. e) (cell x): what nothing else can take is lost in a cell.
    fn discharge_into_cell(
        &mut self,
        goal: u8,
        duty: usize,
        rest: Duties,
        nesting: usize,
    ) -> Option<()> {
        let contents = self.scope[duty];
        let cell = self.table.cell(contents)?;
        let new_cell = self.table.function(Multiplicity::Many, contents, cell)?;
        let wanted = self.multiplicity_for(&rest);
        let function = self.table.function(wanted, cell, goal)?;
        self.nodes.push(Node::Application);
        self.simplest_lambda(function, rest, nesting + 1)?;
        self.nodes.push(Node::Application);
        self.nodes.push(Node::Constant(Constant::Cell, new_cell));
        self.nodes.push(self.variable_node(duty));
        Some(())
    }

    fn simplest_lambda(&mut self, whole: u8, mut duties: Duties, nesting: usize) -> Option<()> {
        let (_, parameter, result) = self.table.function_parts(whole)?;
        if self.table.is_once(parameter) {
            duties.push(self.scope.len());
        }
        self.nodes.push(Node::Lambda(whole));
        self.scope.push(parameter);
        let made = self.simplest(result, duties, nesting + 1);
        self.scope.pop();
        made
    }

    fn simplest_free(&mut self, goal: u8, nesting: usize) -> Option<()> {
        if self.leaf(goal, &Vec::new()).is_some() {
            return Some(());
        }
        if self.table.function_parts(goal).is_some() {
            return self.simplest_lambda(goal, Vec::new(), nesting);
        }
        if self.table.is_once_list(goal) {
            return None;
        }
        if self.table.components(Shape::Pair, goal).is_some() {
            return self.simplest_pair(goal, nesting);
        }
        self.one_or_other(
            |terms| terms.simplest_cell(goal, nesting),
            |terms| terms.simplest_future(goal, nesting),
        )
    }

    fn simplest_pair(&mut self, goal: u8, nesting: usize) -> Option<()> {
        let (first, second) = self.table.components(Shape::Pair, goal)?;
        self.nodes.push(Node::Pair(goal));
        self.simplest(first, Vec::new(), nesting + 1)?;
        self.simplest(second, Vec::new(), nesting + 1)
    }

    fn simplest_cell(&mut self, goal: u8, nesting: usize) -> Option<()> {
        let contents = self.table.contents(goal)?;
        let whole = self.table.function(Multiplicity::Many, contents, goal)?;
        self.nodes.push(Node::Application);
        self.nodes.push(Node::Constant(Constant::Cell, whole));
        self.simplest(contents, Vec::new(), nesting + 1)
    }

    /// thread λx.x: a future of any type of multiplicity many.
    fn simplest_future(&mut self, goal: u8, nesting: usize) -> Option<()> {
        let body = self.table.function(Multiplicity::Many, goal, goal)?;
        let whole = self.table.function(Multiplicity::Many, body, goal)?;
        if nesting + 2 > limits::MAX_NESTING {
            return None;
        }
        self.nodes.push(Node::Application);
        self.nodes.push(Node::Constant(Constant::Thread, whole));
        self.nodes.push(Node::Lambda(body));
        self.nodes.push(Node::Variable(0));
        Some(())
    }
}
