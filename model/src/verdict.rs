//! Document 01's causes 1 to 11, each tried over the whole file; the lowest number wins. After them
//! cause 19 of document 02, T-07.

use crate::causes;
use crate::editions::Edition;
use crate::expression::{Case, Expression, Variable};
use crate::format::{self, edition_of};
use crate::limits;
use crate::nodes::{read_term, standings, Node};
use crate::table::{entries_of, Table};
use crate::types::{is_instance, Multiplicity, Shape, Type};
use crate::typing::{derive, Environment, Subject};
use std::rc::Rc;

/// Accepted, with each bay's type number; or refused, with the number of the cause.
#[derive(Debug, Clone, PartialEq, Eq)]
pub enum Verdict {
    Accepted(Vec<u8>),
    Refused(u32),
}

impl Verdict {
    /// 0 for accepted, else the number of the cause.
    pub fn number(&self) -> u32 {
        match self {
            Verdict::Accepted(_) => 0,
            Verdict::Refused(number) => *number,
        }
    }
}

/// The verdict on a file.
pub fn verdict(file: &[u8]) -> Verdict {
    match examine(file) {
        Ok(types) => Verdict::Accepted(types),
        Err(number) => Verdict::Refused(number),
    }
}

/// The causes that ask about bytes, in their order; then those that ask about terms; then that of the
/// starting part: "tried after 11 and before 18".
fn examine(file: &[u8]) -> Result<Vec<u8>, u32> {
    let ReadRecipe {
        table,
        starts,
        terms,
    } = read_recipe(file)?;
    refuse_if_any_unfit(&table, &terms)?;
    refuse_if(starts.is_none(), causes::STARTING)?;
    let numbers = terms.iter().map(|term| {
        let found = type_of(&table, &Expression::of_nodes(term));
        found.and_then(|found| table.number_of(&found))
    });
    Ok(numbers
        .map(|n| n.expect("the type of an accepted term is an entry"))
        .collect())
}

fn refuse_if(fits: bool, number: u32) -> Result<(), u32> {
    if fits {
        Err(number)
    } else {
        Ok(())
    }
}

/// A recipe that causes 1 to 6 do not refuse.
#[derive(Debug, Clone)]
pub struct ReadRecipe {
    pub table: Table,
    /// The starting num of each bay, or `None` for cause 19.
    pub starts: Option<Vec<u16>>,
    pub terms: Vec<Vec<Node>>,
}

/// The recipe of a file, or the lowest of causes 1 to 6.
pub fn read_recipe(file: &[u8]) -> Result<ReadRecipe, u32> {
    refuse_if(
        !limits::FILE_BYTES.contains(&file.len()),
        causes::FILE_LENGTH,
    )?;
    let edition = edition_of(file).ok_or(causes::OPENING)?;
    let parts = format::parts(edition, file).ok_or(causes::LAYOUT)?;
    let table = Table::read(edition, &entries_of(parts.table)).ok_or(causes::TYPE_ENTRY)?;
    let terms = read_terms(edition, &parts.terms).ok_or(causes::NO_TERM)?;
    refuse_if(above_the_limits(&terms), causes::TERM_SIZE)?;
    Ok(ReadRecipe {
        table,
        starts: parts.starting_nums(),
        terms,
    })
}

/// Cause 5: "a part is not exactly one term".
fn read_terms(edition: Edition, parts: &[&[u8]]) -> Option<Vec<Vec<Node>>> {
    let read = |part: &&[u8]| read_term(edition.forms(), part);
    parts.iter().map(read).collect()
}

/// Cause 6: "nesting or nodes above the limit".
fn above_the_limits(terms: &[Vec<Node>]) -> bool {
    let nodes: usize = terms.iter().map(Vec::len).sum();
    let too_deep = |term: &Vec<Node>| {
        standings(term)
            .iter()
            .any(|s| s.nesting > limits::MAX_NESTING)
    };
    nodes > limits::MAX_RECIPE_NODES || terms.iter().any(too_deep)
}

/// Causes 7 to 11 on terms within the limits: the lowest that fits one of them.
pub fn refuse_if_any_unfit(table: &Table, terms: &[Vec<Node>]) -> Result<(), u32> {
    let bays = terms.len();
    refuse_if(
        terms.iter().any(|t| names_nothing(table, bays, t)),
        causes::SCOPE,
    )?;
    refuse_if(
        terms.iter().any(|t| has_unfit_type(table, t)),
        causes::ANNOTATION,
    )?;
    let trees: Vec<Expression> = terms.iter().map(|t| Expression::of_nodes(t)).collect();
    refuse_if(
        trees.iter().any(|e| type_of(table, e).is_none()),
        causes::TYPE,
    )?;
    refuse_if(
        trees.iter().any(|e| misuses_once(table, e)),
        causes::LINEARITY,
    )?;
    refuse_if(
        trees.iter().any(|e| is_once_at_root(table, e)),
        causes::BAY_ONCE,
    )
}

/// Cause 7: "index with no lambda, name not below b, type number not below t". A case binds too.
fn names_nothing(table: &Table, bays: usize, term: &[Node]) -> bool {
    let standing = standings(term);
    term.iter().zip(standing).any(|(node, here)| match node {
        Node::Variable(index) => usize::from(*index) >= here.variables,
        Node::Name(k) => usize::from(*k) >= bays,
        _ => node.type_number().map_or(false, |t| table.get(t).is_none()),
    })
}

/// Cause 8: "lambda's type no function, constant's type no instance of Fig. 8 (handle as above)",
/// and "where node 10's type is no pair or node 11's no list".
fn has_unfit_type(table: &Table, term: &[Node]) -> bool {
    term.iter().any(|node| {
        let whole = node.type_number().map(|t| table.get(t));
        match whole {
            Some(Some(whole)) => !fits(*node, whole),
            Some(None) => true,
            None => false,
        }
    })
}

/// Whether a node that carries a type may carry this one.
fn fits(node: Node, whole: &Rc<Type>) -> bool {
    match node {
        Node::Lambda(_) => whole.function().is_some(),
        Node::Constant(c, _) => is_instance(c, whole),
        Node::Pair(_) => whole.components(Shape::Pair).is_some(),
        Node::Front(_) => whole.components(Shape::List).is_some(),
        _ => true,
    }
}

/// The variables in scope with their types.
type Scope = Vec<(Variable, Rc<Type>)>;

/// The type that a term would have if once and many did not matter: `None` where cause 9 fits,
/// "application of a non-function, argument or body of another type", "a component or subject of
/// another type".
pub fn type_of(table: &Table, term: &Expression) -> Option<Rc<Type>> {
    type_under(table, &mut Vec::new(), term)
}

fn type_under(table: &Table, scope: &mut Scope, e: &Expression) -> Option<Rc<Type>> {
    match e {
        Expression::Variable(x) => {
            let bound = scope.iter().rev().find(|(y, _)| y == x)?;
            Some(bound.1.clone())
        }
        Expression::Lambda(t, x, body) => {
            let whole = table.get(*t)?;
            let (parameter, result) = whole.function()?;
            scope.push((*x, parameter.clone()));
            let body_type = type_under(table, scope, body);
            scope.pop();
            (body_type? == *result).then(|| whole.clone())
        }
        Expression::Application(function, argument) => {
            let function = type_under(table, scope, function)?;
            let argument = type_under(table, scope, argument)?;
            let (parameter, result) = function.function()?;
            (*parameter == argument).then(|| result.clone())
        }
        Expression::Unit => Some(Rc::new(Type::Unit)),
        Expression::Num(_) => Some(Rc::new(Type::Num)),
        Expression::Constant(_, t) => table.get(*t).cloned(),
        Expression::Name(_) => Some(setting_type()),
        Expression::Pair(t, e1, e2) => compound_type(table, scope, Shape::Pair, *t, (e1, e2)),
        Expression::Front(t, e1, e2) => compound_type(table, scope, Shape::List, *t, (e1, e2)),
        Expression::Case(case) => {
            let more = variables_of_case(table, scope, case)?;
            scope.extend(more);
            let body_type = type_under(table, scope, &case.body);
            scope.truncate(scope.len() - 2);
            body_type
        }
    }
}

/// The type of a pair or a front: the one that it carries, if its components are as that says.
fn compound_type(
    table: &Table,
    scope: &mut Scope,
    shape: Shape,
    t: u8,
    (e1, e2): (&Expression, &Expression),
) -> Option<Rc<Type>> {
    let whole = table.get(t)?;
    let components = (type_under(table, scope, e1)?, type_under(table, scope, e2)?);
    (whole.components(shape)? == components).then(|| whole.clone())
}

/// The two variables that the body of a case has more, with the types that its subject gives them.
fn variables_of_case(
    table: &Table,
    scope: &mut Scope,
    case: &Case,
) -> Option<[(Variable, Rc<Type>); 2]> {
    let subject = type_under(table, scope, &case.subject)?;
    let (first, second) = subject.components(case.shape)?;
    Some([(case.x, first), (case.y, second)])
}

/// "Each bay k has a setting: a cell of num"
pub fn setting_type() -> Rc<Type> {
    Rc::new(Type::Cell(Rc::new(Type::Num)))
}

/// Cause 10: "a once-variable not used exactly once, or free under a many-lambda". The lambda
/// that binds the variable does not count as one it is free under. Cause 9 does not fit the term.
fn misuses_once(table: &Table, e: &Expression) -> bool {
    misuses_under(table, &mut Vec::new(), e)
}

fn misuses_under(table: &Table, scope: &mut Scope, e: &Expression) -> bool {
    match e {
        Expression::Lambda(t, x, body) => {
            let whole = table.get(*t).and_then(|whole| whole.function());
            let bound = whole.map(|(parameter, _)| (*x, parameter.clone()));
            binder_misuses(table, scope, bound.into_iter().collect(), body)
        }
        Expression::Application(e1, e2)
        | Expression::Pair(_, e1, e2)
        | Expression::Front(_, e1, e2) => {
            misuses_under(table, scope, e1) || misuses_under(table, scope, e2)
        }
        Expression::Case(case) => {
            let bound = variables_of_case(table, scope, case).into_iter().flatten();
            misuses_under(table, scope, &case.subject)
                || binder_misuses(table, scope, bound.collect(), &case.body)
        }
        _ => false,
    }
}

/// Whether one of the variables bound here is a misused once-variable, or one further in.
fn binder_misuses(table: &Table, scope: &mut Scope, bound: Scope, body: &Expression) -> bool {
    let misused = |(x, alpha): &(Variable, Rc<Type>)| {
        alpha.is_once() && (uses(*x, body) != 1 || free_under_many(table, *x, body))
    };
    if bound.iter().any(misused) {
        return true;
    }
    let outside = scope.len();
    scope.extend(bound);
    let inside = misuses_under(table, scope, body);
    scope.truncate(outside);
    inside
}

/// How often the variable stands in the term.
fn uses(x: Variable, e: &Expression) -> usize {
    match e {
        Expression::Variable(y) => usize::from(*y == x),
        Expression::Lambda(_, _, body) => uses(x, body),
        Expression::Application(e1, e2)
        | Expression::Pair(_, e1, e2)
        | Expression::Front(_, e1, e2) => uses(x, e1) + uses(x, e2),
        Expression::Case(case) => uses(x, &case.subject) + uses(x, &case.body),
        _ => 0,
    }
}

/// Whether the variable stands under some many-lambda of this body of its own binder. A case is no
/// lambda.
fn free_under_many(table: &Table, x: Variable, e: &Expression) -> bool {
    match e {
        Expression::Lambda(t, _, body) => {
            let many = table.get(*t).map(|whole| whole.multiplicity()) == Some(Multiplicity::Many);
            (many && uses(x, body) > 0) || free_under_many(table, x, body)
        }
        Expression::Application(e1, e2)
        | Expression::Pair(_, e1, e2)
        | Expression::Front(_, e1, e2) => {
            free_under_many(table, x, e1) || free_under_many(table, x, e2)
        }
        Expression::Case(case) => {
            free_under_many(table, x, &case.subject) || free_under_many(table, x, &case.body)
        }
        _ => false,
    }
}

/// Cause 11: "a bay's type has multiplicity once".
fn is_once_at_root(table: &Table, e: &Expression) -> bool {
    type_of(table, e).map_or(false, |found| found.is_once())
}

/// The environment of a recipe of that many bays: each setting a cell of num.
pub fn settings(bays: usize) -> Environment {
    let names = (0..bays).map(|k| u8::try_from(k).expect("at most 16 bays"));
    names.fold(Environment::default(), |gamma, k| {
        gamma.with(Subject::Name(k), setting_type())
    })
}

/// The other way to the same answer: the type of each term by a derivation of Figs. 9 and 10, if every
/// term has one and it is of multiplicity many.
pub fn derived_types(table: &Table, terms: &[Vec<Node>]) -> Option<Vec<Rc<Type>>> {
    let gamma = settings(terms.len());
    let derived = terms.iter().map(|term| {
        let found = derive(table, &gamma, &Expression::of_nodes(term))?;
        found.is_many().then_some(found)
    });
    derived.collect()
}
