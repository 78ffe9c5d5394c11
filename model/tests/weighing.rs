//! Document 02, T-05: what the outcome of rules 1, 8 and 9 weighs; and the comparison finds steppers that weigh it wrongly.

mod impostor;

use impostor::*;
use model::answers::{SteppedAnswer, REFUSED, RULE};
use model::causes;
use model::command::on_deep_stack;
use model::config::{Component, Configuration};
use model::context::{find, Found, Place};
use model::draw::Draw;
use model::expression::{Expression, Variable};
use model::generate::configurations::{configuration, outcome_at_limit};
use model::image::{read_image, write_image};
use model::limits;
use model::nodes::{write_term, Node};
use model::reduce::{move_of, Move};
use model::rules;
use std::rc::Rc;

/// What is put in: the body, and each value with its variable, in place of an application or case.
struct Putting {
    redex: Expression,
    body: Rc<Expression>,
    values: Vec<(Variable, Rc<Expression>)>,
}

/// What that thread puts in, if it goes by rule 1, 8 or 9.
fn putting(configuration: &Configuration, thread: usize) -> Option<Putting> {
    let expression = match configuration.components.get(thread)? {
        Component::Thread(expression) => expression,
        _ => return None,
    };
    let place = match find(expression) {
        Found::Place(_, place) => place,
        Found::Value => return None,
    };
    let (redex, body, values) = match place {
        Place::Meeting(function, v) => match &*function {
            Expression::Lambda(_, x, body) => {
                let values = vec![(*x, v.clone())];
                let redex = Expression::Application(function.clone(), v);
                (redex, body.clone(), values)
            }
            _ => return None,
        },
        Place::Case(case) => match &*case.subject {
            Expression::Pair(_, v1, v2) | Expression::Front(_, v1, v2) => {
                let values = vec![(case.x, v1.clone()), (case.y, v2.clone())];
                (Expression::Case(case.clone()), case.body.clone(), values)
            }
            _ => return None,
        },
    };
    Some(Putting {
        redex,
        body,
        values,
    })
}

/// How often a variable stands in an expression.
fn places(e: &Expression, x: Variable) -> usize {
    match e {
        Expression::Variable(y) => usize::from(*y == x),
        Expression::Lambda(_, _, body) => places(body, x),
        Expression::Application(e1, e2)
        | Expression::Pair(_, e1, e2)
        | Expression::Front(_, e1, e2) => places(e1, x) + places(e2, x),
        Expression::Case(case) => places(&case.subject, x) + places(&case.body, x),
        _ => 0,
    }
}

fn bytes(e: &Expression) -> usize {
    write_term(&e.nodes()).len()
}

/// The bytes before the body and the values: an application and a lambda, or a case and a pair or front.
const AROUND: usize = 3;
/// The bytes of a variable.
const VARIABLE: usize = 2;

impl Putting {
    /// "for each place", that of its value.
    fn for_each_place(&self, weight: impl Fn(&Expression) -> usize) -> usize {
        let of = |(x, v): &(Variable, Rc<Expression>)| places(&self.body, *x) * weight(v);
        self.values.iter().map(of).sum()
    }

    /// "the body's nodes plus, for each place, its value's nodes less one"
    fn nodes(&self) -> usize {
        self.body.size() + self.for_each_place(|v| v.size() - 1)
    }

    /// The same of bytes.
    fn bytes(&self) -> usize {
        let values: usize = self.values.iter().map(|(_, v)| bytes(v)).sum();
        let body = bytes(&self.redex) - AROUND - values;
        body + self.for_each_place(bytes) - self.for_each_place(|_| VARIABLE)
    }

    /// The value for the innermost variable.
    fn innermost(&self) -> &Expression {
        &self.values[self.values.len() - 1].1
    }
}

/// The rule by which that thread puts values in, if it does; the outcome weighs what is said.
fn weighed(now: &Configuration, thread: usize) -> Option<u8> {
    let putting = putting(now, thread)?;
    let (rule, next) = match move_of(now, thread) {
        Move::Rule(rule, next) => (rule, next),
        _ => return None,
    };
    let nodes = now.nodes() - putting.redex.size() + putting.nodes();
    assert_eq!(next.nodes(), nodes);
    let length = write_image(now).len() - bytes(&putting.redex) + putting.bytes();
    assert_eq!(write_image(&next).len(), length);
    Some(rule)
}

#[test]
fn the_outcome_weighs_what_is_said() {
    on_deep_stack(|| {
        let mut draw = Draw::new(2_005);
        let mut met = Vec::new();
        for _ in 0..6_000 {
            let makers: [fn(&mut Draw) -> Configuration; 2] = [configuration, outcome_at_limit];
            let now = draw.pick(&makers)(&mut draw);
            met.extend((0..now.names()).filter_map(|thread| weighed(&now, thread)));
        }
        let putting = [rules::BETA, rules::CASE_PAIR, rules::CASE_LIST];
        for rule in putting {
            assert!(met.iter().filter(|one| **one == rule).count() > 100);
        }
        assert!(met.iter().all(|rule| putting.contains(rule)));
    });
}

/// What a stepper takes the outcome's nodes to be, of what is put in.
type Weigh = fn(&Putting) -> usize;

/// A stepper that decides room in rules 1, 8 and 9 by that.
fn by_weight(weigh: Weigh, image: &[u8], thread: u64, out: &mut [u8]) -> SteppedAnswer {
    let answer = step(image, thread, out);
    let no_room = SteppedAnswer {
        outcome: REFUSED,
        number: causes::ROOM,
        length: 0,
    };
    if answer.outcome != RULE && answer != no_room {
        return answer;
    }
    let now = read_image(image).expect("an image that was stepped");
    let putting = match putting(&now, thread as usize) {
        Some(putting) => putting,
        None => return answer,
    };
    let lacks = now.nodes() - putting.redex.size() + weigh(&putting) > limits::MAX_NODES;
    match lacks {
        true => no_room,
        false if answer == no_room => SteppedAnswer {
            outcome: RULE,
            number: rules::BETA.into(),
            length: image.len() as u64,
        },
        false => answer,
    }
}

/// A stepper that weighs like this.
macro_rules! weighing {
    ($weigh:expr) => {{
        let step: Step = |image, thread, out| {
            let weigh: Weigh = $weigh;
            by_weight(weigh, image, thread, out)
        };
        step
    }};
}

/// Whether the comparison finds it; outcomes at the limit are rare among what is drawn.
fn is_caught(step: Step) -> bool {
    is_found_among(&with_step(step), 10_000)
}

#[test]
fn the_one_that_weighs_as_asked_passes() {
    assert!(!is_found_among(
        &with_step(weighing!(Putting::nodes)),
        1_000
    ));
}

#[test]
fn a_stepper_that_counts_the_value_less_none_at_each_place() {
    assert!(is_caught(weighing!(|putting| {
        putting.body.size() + putting.for_each_place(Expression::size)
    })));
}

#[test]
fn a_stepper_that_takes_index_0_for_a_place_under_every_lambda() {
    assert!(is_caught(weighing!(|putting| {
        let nodes = putting.redex.nodes();
        let zeros = nodes.iter().filter(|node| **node == Node::Variable(0));
        putting.body.size() + zeros.count() * (putting.innermost().size() - 1)
    })));
}

#[test]
fn a_stepper_that_uses_one_value_s_weight_for_both() {
    assert!(is_caught(weighing!(|putting| {
        putting.body.size() + putting.for_each_place(|_| putting.innermost().size() - 1)
    })));
}

#[test]
fn a_stepper_that_decides_room_by_the_old_image() {
    assert!(is_caught(weighing!(|putting| putting.redex.size())));
}
