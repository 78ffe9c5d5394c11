//! Causes 10 and 11: once-variables, and the types of the bays.

use crate::causes;
use crate::nodes::{end_of_term, Node};
use crate::table::Entry;
use crate::tool::faults::marks;
use crate::tool::faults::terms::at_node;
use crate::tool::faults::{Fault, Parts};
use crate::tool::outline::Binder;
use crate::tool::text::printer::Printer;
use crate::tool::text::spelling::UNICODE;
use crate::tool::text::spot;
use crate::tool::text::type_texts::TypeTexts;

fn is_once(entries: &[Entry], number: u8) -> bool {
    let e = entries.get(usize::from(number));
    e.map_or(false, |e| e.is_once())
}

/// Cause 10.
pub fn once(recipe: &Parts, terms: &[Vec<Node>]) -> Result<(), Fault> {
    let texts = TypeTexts::new(&recipe.entries, &UNICODE);
    for (bay, nodes) in terms.iter().enumerate() {
        let printer = Printer::in_text(nodes, &texts, recipe.spots(bay));
        for (node, binds) in nodes.iter().enumerate() {
            let variables = (0..binds.binders()).map(|place| Binder { node, place });
            let found = variables
                .filter_map(|binder| misused(&printer, binder))
                .next();
            if let Some((at, found)) = found {
                return Err(at_node(recipe, causes::LINEARITY, (bay, at), nodes, found));
            }
        }
    }
    Ok(())
}

/// Where and how the variable is misused, if it is a once-variable.
fn misused(printer: &Printer, binder: Binder) -> Option<(usize, String)> {
    let (nodes, node) = (printer.nodes, binder.node);
    let own = printer.variable_type(binder)?;
    if !is_once(printer.texts.entries, own) {
        return None;
    }
    let is_use = |at: &usize| match nodes[*at] {
        Node::Variable(index) => printer.outline.binder(*at, index) == Some(binder),
        _ => false,
    };
    let uses: Vec<usize> = (node..end_of_term(nodes, node)).filter(is_use).collect();
    let x = spot::variable(printer.spots, &printer.outline, binder);
    let told = printer.texts.told(own);
    let what = format!("the once-variable {x}, of type {told},");
    if uses.len() != 1 {
        return Some((node, format!("{what} is used {} times", uses.len())));
    }
    let many = many_between(printer, uses[0], node)?;
    let advice = marks::advice(printer, many, true);
    let found = format!("{what} is free under a many-lambda; {advice}");
    Some((uses[0], found))
}

/// A many-lambda between a use and what binds it. A case is no lambda.
fn many_between(printer: &Printer, from: usize, binder: usize) -> Option<usize> {
    let above = &printer.outline.above;
    let mut here = above[from].binder?;
    while here != binder {
        let whole = printer.nodes[here].type_number();
        if whole.map_or(false, |t| !is_once(printer.texts.entries, t)) {
            return Some(here);
        }
        here = above[here].binder?;
    }
    None
}

/// Cause 11.
pub fn bays_are_many(recipe: &Parts, terms: &[Vec<Node>]) -> Result<(), Fault> {
    let texts = TypeTexts::new(&recipe.entries, &UNICODE);
    for (bay, nodes) in terms.iter().enumerate() {
        let printer = Printer::in_text(nodes, &texts, recipe.spots(bay));
        let root = printer.types.first().copied().flatten();
        let once = root.filter(|t| is_once(&recipe.entries, *t));
        if let Some(t) = once {
            let advice = match nodes[0] {
                Node::Lambda(_) => format!("; {}", marks::advice(&printer, 0, false)),
                _ => String::new(),
            };
            let found = format!("the bay's type is {}, usable once{advice}", texts.told(t));
            return Err(at_node(recipe, causes::BAY_ONCE, (bay, 0), nodes, found));
        }
    }
    Ok(())
}
