//! Terms with pairs, lists and cases.

use super::{Duties, TermMaker};
use crate::limits;
use crate::nodes::Node;
use crate::table::UNIT_ENTRY;
use crate::types::{Constant, Multiplicity, Shape};

/// The types of handle (λx. λh. e) and those inside, outermost last.
struct HandleTypes {
    alpha: u8,
    handle: u8,
    with_handle: u8,
    body: u8,
    whole: u8,
}

/// How deep the nodes of a queue stand below its root.
const QUEUE_NESTING: usize = 13;

impl TermMaker<'_> {
    pub(super) fn some_compound_form(
        &mut self,
        goal: u8,
        duties: &Duties,
        nesting: usize,
    ) -> Option<()> {
        if self.both && !duties.is_empty() {
            return self.in_both_components(goal, duties, nesting);
        }
        match self.draw.below(12) {
            0..=2 if self.table.shape(goal).is_some() => self.compound(goal, duties, nesting),
            0..=3 => self.take_apart_any(goal, duties, nesting),
            4..=6 => self.take_apart_variable(goal, duties, nesting),
            7 => self.handle_in_pair(goal, duties, nesting),
            8 => self.new_queue(goal, duties, nesting),
            9 => self.put_and_take(goal, duties, nesting),
            10 => self.let_once_list(goal, duties, nesting),
            _ => self.let_compound(goal, duties, nesting),
        }
    }

    /// (e, e') or e :: e'
    fn compound(&mut self, goal: u8, duties: &Duties, nesting: usize) -> Option<()> {
        let (node, first, second) = self.compound_node(goal)?;
        let (left, right) = self.share_out(duties);
        self.nodes.push(node);
        self.term(first, left, nesting + 1)?;
        self.term(second, right, nesting + 1)
    }

    /// case (e, e') of (x, y) ⇒ e", the duties done in e and in e'.
    fn in_both_components(&mut self, goal: u8, duties: &Duties, nesting: usize) -> Option<()> {
        let multiplicity = self.any_multiplicity();
        let pair = self.table.pair(multiplicity, UNIT_ENTRY, UNIT_ENTRY)?;
        self.nodes
            .extend([Node::Case(Shape::Pair), Node::Pair(pair)]);
        self.simplest(UNIT_ENTRY, duties.clone(), nesting + 2)?;
        self.simplest(UNIT_ENTRY, duties.clone(), nesting + 2)?;
        self.case_body(pair, goal, Vec::new(), nesting)
    }

    /// The node of a pair or list type, and the types of its components.
    fn compound_node(&self, goal: u8) -> Option<(Node, u8, u8)> {
        let shape = self.table.shape(goal)?;
        let (first, second) = self.table.components(shape, goal)?;
        let node = match shape {
            Shape::Pair => Node::Pair(goal),
            Shape::List => Node::Front(goal),
        };
        Some((node, first, second))
    }

    /// (λx.e) e', the argument a pair or a list.
    fn let_compound(&mut self, goal: u8, duties: &Duties, nesting: usize) -> Option<()> {
        let argument = self.table.any_compound(self.draw)?;
        self.let_of(argument, goal, duties, nesting)
    }

    /// (λf. e) (λl. e' :: l), or the same of what l is taken apart into: a once list, of which there
    /// is none.
    fn let_once_list(&mut self, goal: u8, duties: &Duties, nesting: usize) -> Option<()> {
        let contents = self.table.any(self.draw);
        let list = self.table.list(Multiplicity::Once, contents)?;
        let multiplicity = self.any_multiplicity();
        let function = self.table.function(multiplicity, list, list)?;
        let multiplicity = self.multiplicity_for(duties);
        let with_function = self.table.function(multiplicity, function, goal)?;
        self.nodes.push(Node::Application);
        self.lambda(with_function, duties.clone(), nesting + 1)?;
        self.nodes.push(Node::Lambda(function));
        let mut own = Vec::new();
        self.bind(list, &mut own);
        if self.draw.one_in(2) {
            self.nodes.push(Node::Front(list));
            self.term(contents, Vec::new(), nesting + 3)?;
            self.nodes.push(Node::Variable(0));
        } else {
            self.nodes
                .extend([Node::Case(Shape::List), Node::Variable(0)]);
            self.nodes.push(Node::Front(list));
            self.nodes.extend([Node::Variable(1), Node::Variable(0)]);
        }
        self.scope.pop();
        Some(())
    }

    /// A case of a subject of any pair or list type.
    fn take_apart_any(&mut self, goal: u8, duties: &Duties, nesting: usize) -> Option<()> {
        let subject = self.table.any_compound(self.draw)?;
        let (left, right) = self.share_out(duties);
        self.nodes.push(Node::Case(self.table.shape(subject)?));
        if self.draw.one_in(2) {
            self.compound(subject, &left, nesting + 1)?;
        } else {
            self.term(subject, left, nesting + 1)?;
        }
        self.case_body(subject, goal, right, nesting)
    }

    /// The body of a case at that nesting, its subject being of that type.
    fn case_body(
        &mut self,
        subject: u8,
        goal: u8,
        mut duties: Duties,
        nesting: usize,
    ) -> Option<()> {
        let shape = self.table.shape(subject)?;
        let (first, second) = self.table.components(shape, subject)?;
        self.bind(first, &mut duties);
        self.bind(second, &mut duties);
        let made = self.term(goal, duties, nesting + 1);
        self.scope.truncate(self.scope.len() - 2);
        made
    }

    /// case x of .. ⇒ e, for a variable x of a pair or list type.
    fn take_apart_variable(&mut self, goal: u8, duties: &Duties, nesting: usize) -> Option<()> {
        let usable = |place: &usize| {
            duties.contains(place) || self.careless || !self.table.is_once(self.scope[*place])
        };
        let has_shape = |place: &usize| self.table.shape(self.scope[*place]).is_some();
        let places = 0..self.scope.len();
        let candidates: Vec<usize> = places.filter(|p| usable(p) && has_shape(p)).collect();
        if candidates.is_empty() {
            return self.let_compound(goal, duties, nesting);
        }
        let place = self.draw.pick(&candidates);
        let subject = self.scope[place];
        let rest = duties.iter().copied().filter(|d| *d != place).collect();
        self.nodes.push(Node::Case(self.table.shape(subject)?));
        self.nodes.push(self.variable_node(place));
        self.case_body(subject, goal, rest, nesting)
    }

    /// handle (λx. λh. case (h, e') of (k, y) ⇒ e): a once pair with a handle in it.
    fn handle_in_pair(&mut self, goal: u8, duties: &Duties, nesting: usize) -> Option<()> {
        let alpha = self.future_type();
        let other = self.table.any(self.draw);
        let t = self.handle_types(alpha, goal, duties)?;
        let pair = self.table.pair(Multiplicity::Once, t.handle, other)?;
        self.open_handle(&t);
        let handle = self.variable_node(self.scope.len() - 1);
        self.nodes
            .extend([Node::Case(Shape::Pair), Node::Pair(pair), handle]);
        let made = self.term(other, Vec::new(), nesting + 5);
        let made = made.and_then(|()| self.case_body(pair, goal, duties.clone(), nesting + 3));
        self.scope.truncate(self.scope.len() - 2);
        made
    }

    /// The types of handle (λx. λh. e), for an e that does these duties.
    fn handle_types(&mut self, alpha: u8, goal: u8, duties: &Duties) -> Option<HandleTypes> {
        let handle = self.table.function(Multiplicity::Once, alpha, UNIT_ENTRY)?;
        let multiplicity = self.multiplicity_for(duties);
        let with_handle = self.table.function(multiplicity, handle, goal)?;
        let body = self.table.function(multiplicity, alpha, with_handle)?;
        Some(HandleTypes {
            alpha,
            handle,
            with_handle,
            body,
            whole: self.table.function(Multiplicity::Many, body, goal)?,
        })
    }

    /// handle (λx. λh. .., four nodes that go three levels down; x and h come into scope.
    fn open_handle(&mut self, t: &HandleTypes) {
        self.nodes.push(Node::Application);
        self.nodes.push(Node::Constant(Constant::Handle, t.whole));
        self.nodes.push(Node::Lambda(t.body));
        self.nodes.push(Node::Lambda(t.with_handle));
        self.scope.extend([t.alpha, t.handle]);
    }

    /// handle (λs. λb. (λr. (λput. e) (λx. handle (λs'. λb'. exch r b' (x :: s')))) (cell b)): section
    /// 5's port, a queue of readings that ends in a future.
    fn new_queue(&mut self, goal: u8, duties: &Duties, nesting: usize) -> Option<()> {
        let reading = self.table.any_many(self.draw);
        let list = self.table.list(Multiplicity::Many, reading)?;
        let outer = self.handle_types(list, goal, duties)?;
        let inner = self.handle_types(list, UNIT_ENTRY, &Vec::new())?;
        let many = Multiplicity::Many;
        let cell = self.table.cell(outer.handle)?;
        let new_cell = self.table.function(many, outer.handle, cell)?;
        let rest = self.table.function(many, outer.handle, outer.handle)?;
        let exch = self.table.function(many, cell, rest)?;
        let put = self.table.function(many, reading, UNIT_ENTRY)?;
        let multiplicity = self.multiplicity_for(duties);
        let with_put = self.table.function(multiplicity, put, goal)?;
        let with_cell = self.table.function(multiplicity, cell, goal)?;
        if nesting + QUEUE_NESTING > limits::MAX_NESTING {
            return None;
        }
        self.open_handle(&outer);
        self.nodes.push(Node::Application);
        self.nodes.push(Node::Lambda(with_cell));
        self.nodes.push(Node::Application);
        self.nodes.push(Node::Lambda(with_put));
        self.scope.extend([cell, put]);
        let queue = self.scope.len();
        let made = self.queue_user(goal, duties.clone(), nesting + 7);
        self.scope.truncate(queue - 1);
        made?;
        self.nodes.push(Node::Lambda(put));
        self.scope.push(reading);
        self.open_handle(&inner);
        // under r, x, s' and b', these are 3, 2, 1 and 0
        self.nodes.extend([Node::Application; 3]);
        self.nodes.push(Node::Constant(Constant::Exch, exch));
        self.nodes.extend([Node::Variable(3), Node::Variable(0)]);
        self.nodes.push(Node::Front(list));
        self.nodes.extend([Node::Variable(2), Node::Variable(1)]);
        self.scope.truncate(queue - 2);
        self.nodes.push(Node::Application);
        self.nodes.push(Node::Constant(Constant::Cell, new_cell));
        self.nodes.push(Node::Variable(0));
        self.scope.truncate(queue - 4);
        Some(())
    }

    /// What a queue is for: mostly a reading is put and the list taken apart.
    fn queue_user(&mut self, goal: u8, duties: Duties, nesting: usize) -> Option<()> {
        if self.draw.one_in(4) {
            return self.term(goal, duties, nesting);
        }
        self.one_or_other(
            |terms| terms.put_and_take(goal, &duties, nesting),
            |terms| terms.simplest(goal, duties.clone(), nesting),
        )
    }

    /// (λu. case s of x :: r ⇒ e) (put e'), for variables put: α →ω unit and s: α listω; now and then
    /// the case comes first, and waits.
    fn put_and_take(&mut self, goal: u8, duties: &Duties, nesting: usize) -> Option<()> {
        let (list, put) = self.queue_in_scope()?;
        let (subject, put_type) = (self.scope[list], self.scope[put]);
        let (_, reading, unit) = self.table.function_parts(put_type)?;
        let multiplicity = self.multiplicity_for(duties);
        let then = self.table.function(multiplicity, unit, goal)?;
        if self.draw.one_in(5) {
            self.nodes.push(Node::Case(Shape::List));
            self.nodes.push(self.variable_node(list));
            return self.case_body(subject, goal, duties.clone(), nesting);
        }
        self.nodes.push(Node::Application);
        self.nodes.push(Node::Lambda(then));
        self.scope.push(unit);
        self.nodes.push(Node::Case(Shape::List));
        self.nodes.push(self.variable_node(list));
        let made = self.case_body(subject, goal, duties.clone(), nesting + 2);
        self.scope.pop();
        made?;
        self.nodes.push(Node::Application);
        self.nodes.push(self.variable_node(put));
        self.term(reading, Vec::new(), nesting + 2)
    }

    /// The places of a many list and of what puts readings on one like it.
    fn queue_in_scope(&self) -> Option<(usize, usize)> {
        let list_of = |place: &usize| {
            let number = self.scope[*place];
            let parts = self.table.components(Shape::List, number);
            parts.filter(|_| !self.table.is_once(number))
        };
        let puts = |place: &usize, reading: u8| {
            let parts = self.table.function_parts(self.scope[*place]);
            parts == Some((Multiplicity::Many, reading, UNIT_ENTRY))
        };
        let places = || 0..self.scope.len();
        places().rev().find_map(|list| {
            let (reading, _) = list_of(&list)?;
            let put = places().rev().find(|place| puts(place, reading))?;
            Some((list, put))
        })
    }
}
