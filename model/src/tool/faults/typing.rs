//! Causes 8 and 9: the types that nodes carry, and whether they agree.

use crate::causes;
use crate::nodes::{end_of_term, Node};
use crate::table::Table;
use crate::tool::faults::marks;
use crate::tool::faults::terms::at_node;
use crate::tool::faults::{Fault, Parts};
use crate::tool::text::node_types::{components, function};
use crate::tool::text::printer::{Printer, Standing};
use crate::tool::text::spelling::{constant_name, UNICODE};
use crate::tool::text::type_texts::TypeTexts;
use crate::types::{is_instance, Constant, Shape};

/// Cause 8.
pub fn fit_types(recipe: &Parts, terms: &[Vec<Node>]) -> Result<(), Fault> {
    let table = match Table::read(recipe.edition, &recipe.entries) {
        Some(table) => table,
        None => return Ok(()),
    };
    let texts = TypeTexts::new(&recipe.entries, &UNICODE);
    for (bay, nodes) in terms.iter().enumerate() {
        for (at, node) in nodes.iter().enumerate() {
            let unfit = match node {
                Node::Lambda(t) => function(&recipe.entries, *t)
                    .is_none()
                    .then(|| format!("the lambda's type is {}, no function", texts.told(*t))),
                Node::Constant(c, t) => {
                    let fits = table.get(*t).map_or(false, |whole| is_instance(*c, whole));
                    (!fits).then(|| unfit_constant(*c, &texts.told(*t)))
                }
                Node::Pair(t) => components(&recipe.entries, Shape::Pair, *t)
                    .is_none()
                    .then(|| format!("the pair's type is {}, no pair", texts.told(*t))),
                Node::Front(t) => components(&recipe.entries, Shape::List, *t)
                    .is_none()
                    .then(|| format!("the list front's type is {}, no list", texts.told(*t))),
                _ => None,
            };
            if let Some(found) = unfit {
                return Err(at_node(recipe, causes::ANNOTATION, (bay, at), nodes, found));
            }
        }
    }
    Ok(())
}

fn unfit_constant(constant: Constant, given: &str) -> String {
    let due = match constant {
        Constant::Cell => "a → a ref",
        Constant::Exch => "a ref → a → a",
        Constant::Thread => "(a → a) → a, a usable many times",
        Constant::Handle => "(a → (a →1 unit) → r) → r, a usable many times",
    };
    let name = constant_name(constant);
    format!("{name} has the type {given}, which is not of the form {due}")
}

/// Cause 9: the innermost subterms that do not agree, the first of these.
pub fn agree(recipe: &Parts, terms: &[Vec<Node>]) -> Result<(), Fault> {
    let texts = TypeTexts::new(&recipe.entries, &UNICODE);
    for (bay, nodes) in terms.iter().enumerate() {
        let printer = Printer::in_text(nodes, &texts, recipe.spots(bay));
        let disagrees = |at: &usize| disagreement(&printer, *at).is_some();
        let mut found = (0..nodes.len()).find(disagrees);
        while let Some(at) = found {
            found = (at + 1..end_of_term(nodes, at)).find(disagrees);
            if let (None, Some((place, why))) = (found, disagreement(&printer, at)) {
                return Err(at_node(recipe, causes::TYPE, (bay, place), nodes, why));
            }
        }
    }
    Ok(())
}

/// Which subterm of the node at that place does not agree with the node, and why, where these
/// have types.
fn disagreement(printer: &Printer, at: usize) -> Option<(usize, String)> {
    match printer.nodes[at] {
        Node::Lambda(t) => body_disagrees(printer, at, t),
        Node::Application => argument_disagrees(printer, at),
        Node::Pair(t) => component_disagrees(printer, at, Shape::Pair, t),
        Node::Front(t) => component_disagrees(printer, at, Shape::List, t),
        Node::Case(shape) => subject_disagrees(printer, at, shape),
        _ => None,
    }
}

/// The term at that place, for a message.
fn term_text(printer: &Printer, place: usize) -> String {
    shortened(&printer.line(place, Standing::Alone))
}

fn component_disagrees(
    printer: &Printer,
    at: usize,
    shape: Shape,
    whole: u8,
) -> Option<(usize, String)> {
    let (first, second) = components(printer.texts.entries, shape, whole)?;
    let words = match shape {
        Shape::Pair => ["the first component", "the second component"],
        Shape::List => ["the first element", "the rest"],
    };
    let places = [at + 1, printer.second(at)];
    let due = [first, second];
    (0..2).find_map(|i| {
        let found = printer.types[places[i]].filter(|found| *found != due[i])?;
        let (due_text, found) = (printer.texts.told(due[i]), printer.texts.told(found));
        let marks = marks::to_change(printer, places[i], due[i]);
        let term = term_text(printer, places[i]);
        let word = words[i];
        let text = format!("{word} should be {due_text}, and {term} is {found}{marks}");
        Some((places[i], text))
    })
}

fn subject_disagrees(printer: &Printer, at: usize, shape: Shape) -> Option<(usize, String)> {
    let subject = printer.types[at + 1]?;
    if components(printer.texts.entries, shape, subject).is_some() {
        return None;
    }
    let due = match shape {
        Shape::Pair => "pair",
        Shape::List => "list",
    };
    let (term, found) = (term_text(printer, at + 1), printer.texts.told(subject));
    let text = format!("{term} is taken apart, and is {found}, no {due}");
    Some((at + 1, text))
}

fn body_disagrees(printer: &Printer, at: usize, whole: u8) -> Option<(usize, String)> {
    let (_, result) = function(printer.texts.entries, whole)?;
    let body = printer.types[at + 1]?;
    if body == result {
        return None;
    }
    let (due, found) = (printer.texts.told(result), printer.texts.told(body));
    let marks = marks::to_change(printer, at + 1, result);
    let text = format!("the lambda's body should be {due}, and is {found}{marks}");
    Some((at + 1, text))
}

fn argument_disagrees(printer: &Printer, at: usize) -> Option<(usize, String)> {
    let term = |place| term_text(printer, place);
    let applied = printer.types[at + 1]?;
    let parameter = match function(printer.texts.entries, applied) {
        Some((parameter, _)) => parameter,
        None => {
            let found = printer.texts.told(applied);
            let text = format!("{} is applied, and is {found}, no function", term(at + 1));
            return Some((at + 1, text));
        }
    };
    let place = printer.second(at);
    let argument = printer.types[place]?;
    if argument == parameter {
        return None;
    }
    let (due, found) = (printer.texts.told(parameter), printer.texts.told(argument));
    let marks = marks::to_change(printer, place, parameter);
    let text = format!(
        "the argument should be {due}, and {} is {found}{marks}",
        term(place)
    );
    Some((place, text))
}

/// The most characters of a term in a message.
const WIDEST: usize = 60;

/// A term for a message.
fn shortened(text: &str) -> String {
    if text.chars().count() <= WIDEST {
        return text.to_owned();
    }
    let first: String = text.chars().take(WIDEST).collect();
    format!("{first}…")
}
