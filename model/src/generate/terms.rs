//! Terms of a wanted type. Each once-variable that is handed down is used exactly once and stands
//! under no many-lambda but its own, unless the maker is careless on purpose.

mod compounds;
mod simplest;

use crate::draw::Draw;
use crate::generate::tables::GrowingTable;
use crate::nodes::Node;
use crate::table::{NUM_ENTRY, SETTING_ENTRY, UNIT_ENTRY};
use crate::types::{Constant, Multiplicity};

/// Makes terms; nodes are written root first as they are chosen.
pub struct TermMaker<'a> {
    pub draw: &'a mut Draw,
    pub table: &'a mut GrowingTable,
    pub bays: usize,
    /// How many nodes may still be spent on other than the simplest terms.
    pub fuel: usize,
    /// The nesting that the simplest terms begin at.
    pub deepest: usize,
    /// Once-variables are treated like the others: cause 10 becomes likely.
    pub careless: bool,
    /// Constants are used beyond Fig. 8's conditions on multiplicities: cause 8 becomes likely.
    pub beyond: bool,
    /// Once-variables go to both components of a pair: cause 10 becomes likely.
    pub both: bool,
    /// The type of each variable bound around, outermost first.
    scope: Vec<u8>,
    nodes: Vec<Node>,
}

/// The once-variables that a term must use, by their place in the scope.
type Duties = Vec<usize>;

impl<'a> TermMaker<'a> {
    pub fn new(draw: &'a mut Draw, table: &'a mut GrowingTable, bays: usize) -> TermMaker<'a> {
        TermMaker {
            draw,
            table,
            bays,
            fuel: 30,
            deepest: 60,
            careless: false,
            beyond: false,
            both: false,
            scope: Vec::new(),
            nodes: Vec::new(),
        }
    }

    /// A closed term of that type; `None` when the table or the nesting leaves no room for one.
    pub fn make(&mut self, goal: u8) -> Option<Vec<Node>> {
        self.nodes.clear();
        self.scope.clear();
        self.term(goal, Vec::new(), 1)?;
        Some(std::mem::take(&mut self.nodes))
    }

    /// One of several forms, and the simplest form when they have no room.
    fn term(&mut self, goal: u8, duties: Duties, nesting: usize) -> Option<()> {
        if self.fuel == 0 || nesting >= self.deepest {
            return self.simplest(goal, duties, nesting);
        }
        self.fuel -= 1;
        self.one_or_other(
            |terms| terms.some_form(goal, &duties, nesting),
            |terms| terms.simplest(goal, duties.clone(), nesting),
        )
    }

    /// One way to a term, or the other where the first comes to nothing and all that it wrote and bound
    /// is taken back.
    fn one_or_other(
        &mut self,
        one: impl FnOnce(&mut Self) -> Option<()>,
        other: impl FnOnce(&mut Self) -> Option<()>,
    ) -> Option<()> {
        let (nodes, scope) = (self.nodes.len(), self.scope.len());
        one(self).or_else(|| {
            self.nodes.truncate(nodes);
            self.scope.truncate(scope);
            other(self)
        })
    }

    fn some_form(&mut self, goal: u8, duties: &Duties, nesting: usize) -> Option<()> {
        if self.table.has_compounds() && self.draw.one_in(3) {
            return self.some_compound_form(goal, duties, nesting);
        }
        match self.draw.below(14) {
            0 => self.leaf(goal, duties),
            1 | 2 => self.lambda(goal, duties.clone(), nesting),
            3 => self.let_form(goal, duties, nesting),
            4 => self.plain_application(goal, duties, nesting),
            5 | 6 => self.apply_variable(goal, duties, nesting),
            7 => self.new_thread(goal, duties, nesting),
            8 => self.new_handle(goal, duties, nesting),
            9 => self.new_cell(goal, duties, nesting),
            10 => self.exchange(goal, duties, nesting),
            11 => self.new_port(goal, duties, nesting),
            _ => self.put(goal, duties, nesting),
        }
    }

    /// A node without subterms that has the type.
    fn leaf(&mut self, goal: u8, duties: &Duties) -> Option<()> {
        if let Some(node) = self.variable(goal, duties) {
            self.nodes.push(node);
            return Some(());
        }
        if !duties.is_empty() {
            return None;
        }
        let value = self.draw.between(0, usize::from(u16::MAX)) as u16;
        let node = match goal {
            UNIT_ENTRY => Node::Unit,
            NUM_ENTRY => Node::Num(value),
            SETTING_ENTRY => Node::Name(self.draw.below(self.bays) as u8),
            _ => Node::Constant(self.constant_of(goal)?, goal),
        };
        self.nodes.push(node);
        Some(())
    }

    /// A variable of the type that may be used here, with all duties done.
    fn variable(&mut self, goal: u8, duties: &Duties) -> Option<Node> {
        let fits = |place: &usize| match duties.as_slice() {
            [] => self.careless || !self.table.is_once(self.scope[*place]),
            [duty] => place == duty,
            _ => false,
        };
        let places = 0..self.scope.len();
        let typed = places.filter(|place| self.scope[*place] == goal);
        let candidates: Vec<usize> = typed.filter(fits).collect();
        if candidates.is_empty() {
            return None;
        }
        let place = self.draw.pick(&candidates);
        Some(self.variable_node(place))
    }

    fn variable_node(&self, place: usize) -> Node {
        Node::Variable((self.scope.len() - 1 - place) as u8)
    }

    /// A constant that this type is an instance of.
    fn constant_of(&self, goal: u8) -> Option<Constant> {
        let (_, p, q) = self.table.function_parts(goal)?;
        let many = |t: u8| self.may_be_future(t);
        if self.table.contents(q) == Some(p) {
            return Some(Constant::Cell);
        }
        if let (Some(a), Some((_, b, c))) = (self.table.contents(p), self.table.function_parts(q)) {
            return (a == b && b == c).then_some(Constant::Exch);
        }
        let (_, a, rest) = self.table.function_parts(p)?;
        if a == q && rest == q && many(q) {
            return Some(Constant::Thread);
        }
        let (_, handle, end) = self.table.function_parts(rest)?;
        let is_handle =
            self.table.function_parts(handle) == Some((Multiplicity::Once, a, UNIT_ENTRY));
        (is_handle && end == q && many(a)).then_some(Constant::Handle)
    }

    fn lambda(&mut self, goal: u8, mut duties: Duties, nesting: usize) -> Option<()> {
        let (multiplicity, parameter, result) = self.table.function_parts(goal)?;
        if multiplicity == Multiplicity::Many && !duties.is_empty() {
            return None;
        }
        self.nodes.push(Node::Lambda(goal));
        self.bind(parameter, &mut duties);
        let made = self.term(result, duties, nesting + 1);
        self.scope.pop();
        made
    }

    /// One more variable, a duty where it is once.
    fn bind(&mut self, of_type: u8, duties: &mut Duties) {
        if self.table.is_once(of_type) && !self.careless {
            duties.push(self.scope.len());
        }
        self.scope.push(of_type);
    }

    /// (λx.e) e', the argument of any type.
    fn let_form(&mut self, goal: u8, duties: &Duties, nesting: usize) -> Option<()> {
        if self.draw.one_in(4) {
            self.table.add_any(self.draw);
        }
        let argument = self.table.any(self.draw);
        self.let_of(argument, goal, duties, nesting)
    }

    /// (λx.e) e', the argument of this type.
    fn let_of(&mut self, argument: u8, goal: u8, duties: &Duties, nesting: usize) -> Option<()> {
        let (left, right) = self.share_out(duties);
        let multiplicity = self.multiplicity_for(&left);
        let function = self.table.function(multiplicity, argument, goal)?;
        self.nodes.push(Node::Application);
        self.lambda(function, left, nesting + 1)?;
        self.term(argument, right, nesting + 1)
    }

    /// e e', the argument of any type.
    fn plain_application(&mut self, goal: u8, duties: &Duties, nesting: usize) -> Option<()> {
        let argument = self.table.any(self.draw);
        let multiplicity = self.any_multiplicity();
        let function = self.table.function(multiplicity, argument, goal)?;
        let (left, right) = self.share_out(duties);
        self.nodes.push(Node::Application);
        self.term(function, left, nesting + 1)?;
        self.term(argument, right, nesting + 1)
    }

    /// x e, for a variable x of a function type with this result.
    fn apply_variable(&mut self, goal: u8, duties: &Duties, nesting: usize) -> Option<()> {
        let usable = |place: &usize| {
            duties.contains(place) || self.careless || !self.table.is_once(self.scope[*place])
        };
        let results = |place: &usize| {
            let parts = self.table.function_parts(self.scope[*place]);
            parts.map_or(false, |(_, _, result)| result == goal)
        };
        let places = 0..self.scope.len();
        let candidates: Vec<usize> = places.filter(|p| usable(p) && results(p)).collect();
        if candidates.is_empty() {
            return None;
        }
        let place = self.draw.pick(&candidates);
        let (_, parameter, _) = self.table.function_parts(self.scope[place])?;
        let rest = duties.iter().copied().filter(|d| *d != place).collect();
        self.nodes.push(Node::Application);
        self.nodes.push(self.variable_node(place));
        self.term(parameter, rest, nesting + 1)
    }

    /// thread e
    fn new_thread(&mut self, goal: u8, duties: &Duties, nesting: usize) -> Option<()> {
        if !self.may_be_future(goal) {
            return None;
        }
        let (inner, outer) = (self.any_multiplicity(), self.any_multiplicity());
        let body = self.table.function(inner, goal, goal)?;
        let whole = self.table.function(outer, body, goal)?;
        self.apply_constant(Constant::Thread, whole, body, duties, nesting)
    }

    /// handle e
    fn new_handle(&mut self, goal: u8, duties: &Duties, nesting: usize) -> Option<()> {
        let alpha = self.future_type();
        let usable = self.handle_multiplicity();
        let handle = self.table.function(usable, alpha, UNIT_ENTRY)?;
        let inner = self.any_multiplicity();
        let outer = self.multiplicity_for(duties);
        let rest = self.table.function(inner, handle, goal)?;
        let body = self.table.function(outer, alpha, rest)?;
        let multiplicity = self.any_multiplicity();
        let whole = self.table.function(multiplicity, body, goal)?;
        self.apply_constant(Constant::Handle, whole, body, duties, nesting)
    }

    /// cell e
    fn new_cell(&mut self, goal: u8, duties: &Duties, nesting: usize) -> Option<()> {
        let contents = self.table.contents(goal)?;
        let multiplicity = self.any_multiplicity();
        let whole = self.table.function(multiplicity, contents, goal)?;
        self.apply_constant(Constant::Cell, whole, contents, duties, nesting)
    }

    fn apply_constant(
        &mut self,
        constant: Constant,
        whole: u8,
        argument: u8,
        duties: &Duties,
        nesting: usize,
    ) -> Option<()> {
        self.nodes.push(Node::Application);
        self.nodes.push(Node::Constant(constant, whole));
        self.term(argument, duties.clone(), nesting + 1)
    }

    /// exch e e'
    fn exchange(&mut self, goal: u8, duties: &Duties, nesting: usize) -> Option<()> {
        let cell = self.table.cell(goal)?;
        let (inner, outer) = (self.any_multiplicity(), self.any_multiplicity());
        let rest = self.table.function(inner, goal, goal)?;
        let whole = self.table.function(outer, cell, rest)?;
        let (left, right) = self.share_out(duties);
        self.nodes.push(Node::Application);
        self.nodes.push(Node::Application);
        self.nodes.push(Node::Constant(Constant::Exch, whole));
        self.term(cell, left, nesting + 2)?;
        self.term(goal, right, nesting + 1)
    }

    /// handle (λx. λh. (λr. e) (cell h)): a cell keeps the handle, as in section 5's port.
    fn new_port(&mut self, goal: u8, duties: &Duties, nesting: usize) -> Option<()> {
        let alpha = self.future_type();
        let handle = self.table.function(Multiplicity::Once, alpha, UNIT_ENTRY)?;
        let cell = self.table.cell(handle)?;
        let new_cell = self.table.function(Multiplicity::Many, handle, cell)?;
        let multiplicity = self.multiplicity_for(duties);
        let with_cell = self.table.function(multiplicity, cell, goal)?;
        let with_handle = self.table.function(multiplicity, handle, goal)?;
        let body = self.table.function(multiplicity, alpha, with_handle)?;
        let whole = self.table.function(Multiplicity::Many, body, goal)?;
        self.nodes.push(Node::Application);
        self.nodes.push(Node::Constant(Constant::Handle, whole));
        self.nodes.push(Node::Lambda(body));
        self.nodes.push(Node::Lambda(with_handle));
        self.nodes.push(Node::Application);
        self.scope.extend([alpha, handle]);
        let made = self.lambda(with_cell, duties.clone(), nesting + 4);
        self.scope.truncate(self.scope.len() - 2);
        made?;
        self.nodes.push(Node::Application);
        self.nodes.push(Node::Constant(Constant::Cell, new_cell));
        self.nodes.push(Node::Variable(0));
        Some(())
    }

    /// (λy. e) (exch r e' e"), for a variable r that is a cell of functions: the function that it
    /// held is applied, and a new one is put in.
    fn put(&mut self, goal: u8, duties: &Duties, nesting: usize) -> Option<()> {
        let function_in = |place: usize| {
            let contents = self.table.contents(self.scope[place])?;
            let (_, parameter, result) = self.table.function_parts(contents)?;
            Some((place, contents, parameter, result))
        };
        let cells: Vec<_> = (0..self.scope.len()).filter_map(function_in).collect();
        if cells.is_empty() {
            return self.let_form(goal, duties, nesting);
        }
        let (place, contents, parameter, result) = self.draw.pick(&cells);
        let rest = self
            .table
            .function(Multiplicity::Many, contents, contents)?;
        let whole = self
            .table
            .function(Multiplicity::Many, self.scope[place], rest)?;
        let (left, right) = self.share_out(duties);
        let multiplicity = self.multiplicity_for(&left);
        let then = self.table.function(multiplicity, result, goal)?;
        self.nodes.push(Node::Application);
        self.lambda(then, left, nesting + 1)?;
        self.nodes.extend([Node::Application; 3]);
        self.nodes.push(Node::Constant(Constant::Exch, whole));
        self.nodes.push(self.variable_node(place));
        self.term(contents, right, nesting + 3)?;
        self.term(parameter, Vec::new(), nesting + 2)
    }

    /// Whether a future may have the type: many, unless the maker goes beyond.
    fn may_be_future(&self, number: u8) -> bool {
        self.beyond || !self.table.is_once(number)
    }

    /// a in the type of handle: many, unless the maker goes beyond.
    fn future_type(&mut self) -> u8 {
        if self.beyond {
            self.table.any(self.draw)
        } else {
            self.table.any_many(self.draw)
        }
    }

    /// The multiplicity of a handle: once, unless the maker goes beyond.
    fn handle_multiplicity(&mut self) -> Multiplicity {
        if self.beyond {
            self.any_multiplicity()
        } else {
            Multiplicity::Once
        }
    }

    fn any_multiplicity(&mut self) -> Multiplicity {
        self.draw.pick(&[Multiplicity::Once, Multiplicity::Many])
    }

    /// A multiplicity that a lambda may have that must use these once-variables.
    fn multiplicity_for(&mut self, duties: &Duties) -> Multiplicity {
        if duties.is_empty() {
            self.any_multiplicity()
        } else {
            Multiplicity::Once
        }
    }

    /// Γ₁ · Γ₂: each duty goes to one of two subterms.
    fn share_out(&mut self, duties: &Duties) -> (Duties, Duties) {
        let sides: Vec<bool> = duties.iter().map(|_| self.draw.one_in(2)).collect();
        let on = |side: bool| {
            let chosen = duties.iter().zip(&sides).filter(|(_, s)| **s == side);
            chosen.map(|(duty, _)| *duty).collect()
        };
        (on(true), on(false))
    }
}
