//! Random configurations that keep the rules of an image, whatever their types.

use crate::config::{Component, Configuration};
use crate::draw::Draw;
use crate::expression::Expression;
use crate::limits;
use crate::nodes::Node;
use crate::reduce::{move_of, Move};
use crate::types::{Constant, Shape};
use std::rc::Rc;

/// Makes expressions over a number of names, root first.
struct Maker<'a> {
    draw: &'a mut Draw,
    names: usize,
    fuel: usize,
    nodes: Vec<Node>,
}

const CONSTANTS: [Constant; 4] = [
    Constant::Cell,
    Constant::Exch,
    Constant::Thread,
    Constant::Handle,
];

impl<'a> Maker<'a> {
    fn new(draw: &'a mut Draw, names: usize, fuel: usize) -> Maker<'a> {
        Maker {
            draw,
            names,
            fuel,
            nodes: Vec::new(),
        }
    }

    fn leaf(&mut self, variables: usize) {
        let node = match self.draw.below(6) {
            0 => Node::Unit,
            1 if self.draw.one_in(3) => Node::Num(u16::MAX),
            1 => Node::Num(self.draw.between(0, usize::from(u16::MAX)) as u16),
            2 => Node::Constant(self.draw.pick(&CONSTANTS), self.draw.byte()),
            3 | 4 if variables > 0 => Node::Variable(self.draw.below(variables.min(256)) as u8),
            _ => self.name(),
        };
        self.nodes.push(node);
    }

    fn name(&mut self) -> Node {
        Node::Name(self.draw.below(self.names) as u8)
    }

    fn any(&mut self, variables: usize) {
        if self.fuel == 0 {
            return self.leaf(variables);
        }
        self.fuel -= 1;
        match self.draw.below(8) {
            0 => self.leaf(variables),
            1 | 2 => self.lambda(variables),
            3 => {
                self.compound();
                self.any(variables);
                self.any(variables);
            }
            4 => {
                self.case();
                self.any(variables);
                self.any(variables + 2);
            }
            _ => {
                self.nodes.push(Node::Application);
                self.any(variables);
                self.any(variables);
            }
        }
    }

    fn lambda(&mut self, variables: usize) {
        self.nodes.push(Node::Lambda(self.draw.byte()));
        self.any(variables + 1);
    }

    /// A pair or a front, still without its components.
    fn compound(&mut self) {
        let number = self.draw.byte();
        let node = self.draw.pick(&[Node::Pair(number), Node::Front(number)]);
        self.nodes.push(node);
    }

    /// A case, still without its subject and its body.
    fn case(&mut self) {
        let shape = self.draw.pick(&[Shape::Pair, Shape::List]);
        self.nodes.push(Node::Case(shape));
    }

    /// A value without free variables.
    fn value(&mut self) {
        match self.draw.below(8) {
            0 | 1 => self.lambda(0),
            2 if self.draw.one_in(2) => {
                self.exch();
                self.value();
            }
            3 | 4 if self.fuel > 0 => {
                self.fuel -= 1;
                self.compound_value();
            }
            _ => self.leaf(0),
        }
    }

    fn compound_value(&mut self) {
        self.compound();
        self.value();
        self.value();
    }

    /// exch, still without its argument.
    fn exch(&mut self) {
        self.nodes.push(Node::Application);
        let exch = Node::Constant(Constant::Exch, self.draw.byte());
        self.nodes.push(exch);
    }

    /// A place with layers of Fig. 3's contexts around it.
    fn in_context(&mut self, layers: usize) {
        if layers == 0 {
            return self.place();
        }
        match self.draw.below(6) {
            0 => {
                self.case();
                self.in_context(layers - 1);
                return self.any(2);
            }
            1 | 2 => self.compound(),
            _ => self.nodes.push(Node::Application),
        }
        if self.draw.one_in(2) {
            self.in_context(layers - 1);
            self.any(0);
        } else {
            self.value();
            self.in_context(layers - 1);
        }
    }

    /// Two values that meet, or a case of a value.
    fn place(&mut self) {
        if self.draw.one_in(2) {
            self.case_of_value();
        } else {
            self.two_values();
        }
    }

    fn two_values(&mut self) {
        self.nodes.push(Node::Application);
        match self.draw.below(8) {
            0 | 1 => self.lambda(0),
            2 => {
                let constant = self.draw.pick(&CONSTANTS);
                self.nodes.push(Node::Constant(constant, self.draw.byte()));
            }
            3 | 4 => {
                let name = self.name();
                self.nodes.push(name);
            }
            5 | 6 => {
                self.exch();
                self.leaf(0);
            }
            _ => self.value(),
        }
        self.value();
    }

    fn case_of_value(&mut self) {
        self.case();
        match self.draw.below(7) {
            0 | 1 => self.compound_value(),
            2..=5 => {
                let name = self.name();
                self.nodes.push(name);
            }
            _ => self.value(),
        }
        self.any(2);
    }
}

fn thread_nodes(draw: &mut Draw, names: usize, fuel: usize) -> Vec<Node> {
    let layers = draw.pick(&[0, 0, 0, 1, 2, 5]);
    let form = draw.below(8);
    let mut maker = Maker::new(draw, names, fuel);
    match form {
        0 | 1 => maker.value(),
        2 => maker.any(0),
        _ => maker.in_context(layers),
    }
    maker.nodes
}

fn value_nodes(draw: &mut Draw, names: usize, fuel: usize) -> Vec<Node> {
    let mut maker = Maker::new(draw, names, fuel);
    maker.value();
    maker.nodes
}

pub(super) fn tree(nodes: &[Node]) -> Rc<Expression> {
    Rc::new(Expression::of_nodes(nodes))
}

fn some_thread(draw: &mut Draw, names: usize, fuel: usize) -> Component {
    Component::Thread(tree(&thread_nodes(draw, names, fuel)))
}

/// A configuration of that many names; expressions of about `fuel` nodes each.
pub fn configuration_of(draw: &mut Draw, names: usize, fuel: usize) -> Configuration {
    let mut components = Vec::new();
    for _ in 0..names {
        let component = match draw.below(8) {
            0 | 1 => Component::Cell(tree(&value_nodes(draw, names, fuel))),
            2 => Component::UsedHandle,
            3 | 4 => Component::Future,
            _ => some_thread(draw, names, fuel),
        };
        components.push(component);
    }
    give_handles(draw, &mut components);
    let owners = owners(draw, &components);
    Configuration { components, owners }
}

/// Every future gets one open handle, in place of another component; a last one is given up.
fn give_handles(draw: &mut Draw, components: &mut [Component]) {
    let names = components.len();
    let mut futures: Vec<usize> = Vec::new();
    let mut others: Vec<usize> = Vec::new();
    for (name, component) in components.iter().enumerate() {
        match component {
            Component::Future => futures.push(name),
            _ => others.push(name),
        }
    }
    for future in futures {
        if others.is_empty() {
            components[future] = some_thread(draw, names, 3);
            continue;
        }
        let handle = others.swap_remove(draw.below(others.len()));
        components[handle] = Component::OpenHandle(future as u8);
    }
}

/// An owner for each component: all of one bay, the bays of a recipe, or any, gaps among them; also the
/// highest that there may be. "an open handle has the owner of its future".
fn owners(draw: &mut Draw, components: &[Component]) -> Vec<u8> {
    let bays = draw.pick(&[1, 2, 3, limits::MAX_BAYS, limits::MAX_BAYS]);
    let last = draw.pick(&[bays, limits::MAX_BAYS]) - 1;
    let drawn = components
        .iter()
        .map(|_| (last - draw.below(bays)) as u8)
        .collect::<Vec<u8>>();
    let owner = |(component, owner): (&Component, &u8)| match component {
        Component::OpenHandle(future) => drawn[usize::from(*future)],
        _ => *owner,
    };
    components.iter().zip(&drawn).map(owner).collect()
}

/// Small ones, larger ones, and now and then many names.
pub fn configuration(draw: &mut Draw) -> Configuration {
    let names = match draw.below(20) {
        0 => 0,
        1 => draw.between(200, 256),
        2..=5 => draw.between(6, 30),
        _ => draw.between(1, 6),
    };
    let fuel = if names > 30 {
        4
    } else {
        draw.pick(&[3, 8, 40])
    };
    configuration_of(draw, names, fuel)
}

pub(super) fn threads_of(configuration: &Configuration) -> Vec<usize> {
    (0..configuration.names())
        .filter(|name| matches!(configuration.components[*name], Component::Thread(_)))
        .collect()
}

/// A configuration whose threads, most of them, are about to bind, to exchange or to make a name, with
/// names that other bays may own.
pub fn meeting_names(draw: &mut Draw) -> Configuration {
    let names = draw.pick(&[3, 4, 6, 20]);
    let mut configuration = configuration_of(draw, names, 3);
    for thread in threads_of(&configuration) {
        if draw.below(3) > 0 {
            let meeting = tree(&meeting_a_name(draw, &configuration));
            configuration.components[thread] = Component::Thread(meeting);
        }
    }
    configuration
}

/// z v, exch y v or c x, for an open handle z, a cell y, a constant c that makes names and any name x.
pub(super) fn meeting_a_name(draw: &mut Draw, configuration: &Configuration) -> Vec<Node> {
    let form = draw.below(4);
    let name = some_name(draw, configuration, |component| match form {
        0 => matches!(component, Component::OpenHandle(_)),
        1 => matches!(component, Component::Cell(_)),
        _ => true,
    });
    let mut maker = Maker::new(draw, configuration.names(), 3);
    maker.nodes.push(Node::Application);
    match form {
        0 => maker.nodes.push(name),
        1 => {
            maker.exch();
            maker.nodes.push(name);
        }
        _ => {
            let c = maker.draw.pick(&MAKING_CONSTANTS);
            let constant = Node::Constant(c, maker.draw.byte());
            maker.nodes.extend([constant, name]);
            return maker.nodes;
        }
    }
    maker.value();
    maker.nodes
}

/// The constants that make names.
const MAKING_CONSTANTS: [Constant; 3] = [Constant::Cell, Constant::Thread, Constant::Handle];

/// Some name whose component fits; any name where none does.
fn some_name(
    draw: &mut Draw,
    configuration: &Configuration,
    fits: impl Fn(&Component) -> bool,
) -> Node {
    let all = (0..configuration.names()).map(|name| name as u8);
    let fitting: Vec<u8> = all.filter(|name| fits(configuration.get(*name))).collect();
    match fitting.len() {
        0 => Node::Name(draw.below(configuration.names()) as u8),
        _ => Node::Name(draw.pick(&fitting)),
    }
}

/// A configuration in which some rule's outcome has 4,094 to 4,098 nodes.
pub fn outcome_at_limit(draw: &mut Draw) -> Configuration {
    let names = draw.between(2, 6);
    let mut configuration = configuration_of(draw, names, 8);
    let threads = threads_of(&configuration);
    if !threads.is_empty() && draw.below(3) > 0 {
        let makers: [fn(&mut Draw) -> Vec<Node>; 2] = [growing, growing_case];
        let grows = draw.pick(&makers);
        let thread = draw.pick(&threads);
        configuration.components[thread] = Component::Thread(tree(&grows(draw)));
    }
    let outcomes: Vec<usize> = threads
        .into_iter()
        .filter_map(|thread| match move_of(&configuration, thread) {
            Move::Rule(_, next) => Some(next.nodes()),
            _ => None,
        })
        .collect();
    if outcomes.is_empty() {
        return configuration;
    }
    let wanted = draw.between(limits::MAX_NODES - 2, limits::MAX_NODES + 2);
    let filler = wanted - draw.pick(&outcomes).min(wanted - 1);
    let expression = tree(&large(draw, names, filler));
    let owner = draw.below(limits::MAX_BAYS) as u8;
    configuration.and(Component::Thread(expression), owner)
}

/// (λx. x (x .. unit)) v, with a value large enough that rule 1 adds nodes.
pub(super) fn growing(draw: &mut Draw) -> Vec<Node> {
    let mut term = vec![Node::Application, Node::Lambda(1)];
    for _ in 0..draw.between(2, 4) {
        term.extend([Node::Application, Node::Variable(0)]);
    }
    term.push(Node::Unit);
    term.extend(std::iter::repeat(Node::Lambda(2)).take(draw.between(5, 20)));
    term.push(Node::Unit);
    term
}

/// case (v, w) of (x, y) ⇒ (x, (y, .. unit)), with values large enough that rule 8 or 9 adds nodes.
pub(super) fn growing_case(draw: &mut Draw) -> Vec<Node> {
    let (shape, compound) =
        draw.pick(&[(Shape::Pair, Node::Pair(3)), (Shape::List, Node::Front(4))]);
    let mut term = vec![Node::Case(shape), compound];
    for _ in 0..2 {
        let lambdas = draw.between(1, 20);
        term.extend(std::iter::repeat(Node::Lambda(2)).take(lambdas));
        term.push(Node::Unit);
    }
    for _ in 0..draw.between(1, 5) {
        term.extend([Node::Pair(5), Node::Variable(draw.below(2) as u8)]);
    }
    term.push(draw.pick(&[Node::Unit, Node::Variable(0), Node::Variable(1)]));
    term
}

/// A configuration near both limits: 254 to 256 names, 4,090 to 4,096 nodes.
pub fn configuration_at_limits(draw: &mut Draw) -> Configuration {
    let names = match draw.below(3) {
        0 => draw.between(2, 10),
        _ => draw.between(254, 256),
    };
    let mut configuration = configuration_of(draw, names, 3);
    let wanted = match draw.below(3) {
        0 => draw.between(2_000, 4_000),
        _ => draw.between(4_090, 4_096),
    };
    grow(draw, &mut configuration, wanted);
    configuration
}

/// Brings the nodes to that number by a large expression in one of the threads.
fn grow(draw: &mut Draw, configuration: &mut Configuration, wanted: usize) {
    let threads = threads_of(configuration);
    if threads.is_empty() {
        return;
    }
    let chosen = draw.pick(&threads);
    let others = configuration.nodes()
        - configuration.components[chosen]
            .expression()
            .map_or(0, |e| e.size());
    let room = match wanted.checked_sub(others).filter(|room| *room >= 1) {
        Some(room) => room,
        None => return,
    };
    let expression = tree(&large(draw, configuration.names(), room));
    configuration.components[chosen] = Component::Thread(expression);
}

/// An expression of exactly that many nodes: a wide one, a deep one, or a copying one.
fn large(draw: &mut Draw, names: usize, nodes: usize) -> Vec<Node> {
    let name = Node::Name(draw.below(names) as u8);
    let mut made = match draw.below(4) {
        0 => vec![Node::Lambda(draw.byte()); nodes - 1],
        1 if nodes > 8 => copying(draw, nodes),
        2 if nodes > 8 => {
            let function = draw.pick(&[Node::Unit, name, Node::Constant(Constant::Thread, 9)]);
            let mut term = vec![Node::Application, function];
            term.resize(nodes - 1, Node::Lambda(3));
            term
        }
        _ => [Node::Application, name].repeat((nodes - 1) / 2),
    };
    while made.len() + 1 < nodes {
        made.insert(0, Node::Lambda(0));
    }
    made.push(Node::Unit);
    made
}

/// (λx. x (x (x .. unit))) v, for a larger or smaller v; its last unit is still to come.
fn copying(draw: &mut Draw, nodes: usize) -> Vec<Node> {
    let places = draw.pick(&[0, 1, 2, 3]).min((nodes - 6) / 2);
    let mut term = vec![Node::Application, Node::Lambda(1)];
    for _ in 0..places {
        term.extend([Node::Application, Node::Variable(0)]);
    }
    term.push(Node::Unit);
    term.resize(nodes - 1, Node::Lambda(2));
    term
}
