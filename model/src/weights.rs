//! Steps that copy values into places, for `weights`: refused 15 or not, by how much a value weighs and how many places it goes to.

use crate::answers::{self, Implementation, SteppedAnswer};
use crate::causes;
use crate::curves::inputs::{chain, image_of, lambda, value_of};
use crate::curves::{step, Curve};
use crate::limits;
use crate::rules;
use crate::tags;

/// How many curves are of refused steps, and how many of steps that go.
pub const CURVES: usize = 4;
/// How many sizes a curve has.
const SIZES: usize = 8;
/// The variable bound last, and the one before it.
const INNER: [u8; 2] = [tags::VARIABLE, 0];
const OUTER: [u8; 2] = [tags::VARIABLE, 1];

/// What a step is meant to answer.
#[derive(Debug, Clone, Copy, PartialEq, Eq)]
pub enum Due {
    NoRoom,
    Rule(u8),
}

impl Due {
    fn words(self) -> &'static str {
        match self {
            Due::NoRoom => "refused 15",
            Due::Rule(_) => "goes",
        }
    }

    fn fits(self, answer: SteppedAnswer) -> bool {
        let due = match self {
            Due::NoRoom => (answers::REFUSED, causes::ROOM),
            Due::Rule(rule) => (answers::RULE, u32::from(rule)),
        };
        due == (answer.outcome, answer.number)
    }
}

/// A curve of steps, and what each of them is meant to answer.
pub struct Weighed {
    pub curve: Curve,
    pub due: Due,
}

impl Weighed {
    fn new(
        due: Due,
        what: &str,
        axis: &'static str,
        sizes: Vec<usize>,
        input: impl Fn(usize) -> Vec<u8> + 'static,
    ) -> Weighed {
        let curve = Curve {
            title: format!("{}, {what}", due.words()),
            axis,
            sizes,
            call: step,
            input: Box::new(input),
        };
        Weighed { curve, due }
    }

    /// The value grows, for a variable of so many places.
    fn by_value(due: Due, sizes: Vec<usize>, places: usize) -> Weighed {
        let what = format!("value into {places} places");
        Weighed::new(due, &what, "nodes of the value", sizes, move |nodes| {
            applied(nodes, places)
        })
    }

    /// The places grow, for a value of so many nodes.
    fn by_places(due: Due, sizes: Vec<usize>, nodes: usize) -> Weighed {
        let what = format!("{nodes} nodes into places");
        Weighed::new(due, &what, "places", sizes, move |places| {
            applied(nodes, places)
        })
    }

    /// The nodes of a value and its places grow alike, by the rule that these images are for.
    fn by_both(
        due: Due,
        rule: u8,
        sizes: Vec<usize>,
        input: fn(usize, usize) -> Vec<u8>,
    ) -> Weighed {
        let what = format!("both grow, rule {rule}");
        let axis = "nodes of a value, and its places";
        Weighed::new(due, &what, axis, sizes, move |size| input(size, size))
    }

    /// Whether every step is answered as is meant; if not, where it is not.
    pub fn check(&self, implementation: &dyn Implementation) -> Result<(), String> {
        let mut out = vec![0; limits::MAX_IMAGE];
        for &size in &self.curve.sizes {
            let answer = implementation.step(&(self.curve.input)(size), 0, &mut out);
            if !answer.map_or(false, |answer| self.due.fits(answer)) {
                let title = &self.curve.title;
                return Err(format!("{title}: at {size} the answer is {answer:?}"));
            }
        }
        Ok(())
    }
}

/// The sizes of a curve: multiples of a number, each less by another.
fn sizes(apart: usize, less: usize) -> Vec<usize> {
    (1..=SIZES).map(|k| k * apart - less).collect()
}

/// Rule 1: a lambda with so many places, applied to a value of so many nodes.
fn applied(nodes: usize, places: usize) -> Vec<u8> {
    let function = lambda(&chain(&[&INNER], places));
    image_of(&[[vec![tags::APPLICATION], function, value_of(nodes)].concat()])
}

/// Rule 8: a case of a pair of two values of so many nodes, each with so many places.
fn taken_apart(nodes: usize, places: usize) -> Vec<u8> {
    let value = value_of(nodes);
    let pair = [&[tags::PAIR, 0], &value[..], &value].concat();
    let body = chain(&[&INNER, &OUTER], places);
    image_of(&[[vec![tags::CASE_PAIR], pair, body].concat()])
}

/// The curves: the refused ones, then those that go.
pub fn all() -> [Weighed; 2 * CURVES] {
    let [beta, case_pair] = [rules::BETA, rules::CASE_PAIR];
    [
        Weighed::by_value(Due::NoRoom, sizes(500, 0), 32),
        Weighed::by_places(Due::NoRoom, sizes(250, 0), 64),
        Weighed::by_both(Due::NoRoom, beta, sizes(170, 0), applied),
        Weighed::by_both(Due::NoRoom, case_pair, sizes(84, 0), taken_apart),
        Weighed::by_value(Due::Rule(beta), sizes(60, 0), 8),
        Weighed::by_places(Due::Rule(beta), sizes(30, 0), 16),
        Weighed::by_both(Due::Rule(beta), beta, sizes(8, 2), applied),
        Weighed::by_both(Due::Rule(case_pair), case_pair, sizes(6, 4), taken_apart),
    ]
}
