//! Lambdas that only lack the mark `1`, or have it where they should not.

use crate::nodes::Node;
use crate::table::ONCE;
use crate::tool::outline::Binder;
use crate::tool::text::printer::Printer;
use crate::tool::text::spot;

/// The advice to change the marks of the lambdas at that place, where this gives the type that is
/// due; else nothing.
pub fn to_change(printer: &Printer, at: usize, due: u8) -> String {
    let changes = changes(printer, at, due).unwrap_or_default();
    changes.iter().map(|text| format!("; {text}")).collect()
}

/// What each lambda should be; `None` if more is wrong than marks.
fn changes(printer: &Printer, at: usize, due: u8) -> Option<Vec<String>> {
    let entries = printer.texts.entries;
    let mut found = Vec::new();
    let (mut here, mut due) = (at, due);
    loop {
        let own = match printer.nodes[here] {
            Node::Lambda(own) => own,
            _ => return None,
        };
        let (is, should) = (
            entries.get(usize::from(own))?,
            entries.get(usize::from(due))?,
        );
        let should_be_function = printer.texts.is_function(due);
        if !should_be_function || is.p != should.p {
            return None;
        }
        if is.kind != should.kind {
            found.push(advice(printer, here, should.kind == ONCE));
        }
        if is.q == should.q {
            return Some(found);
        }
        here += 1;
        due = should.q;
    }
}

/// "the λx at 1:9 should be λ1 x", or the other way round.
pub fn advice(printer: &Printer, lambda: usize, once: bool) -> String {
    let sign = printer.texts.spelling.lambda;
    let x = spot::variable(printer.spots, &printer.outline, Binder::of_lambda(lambda));
    let place = spot::place(printer.spots, &printer.outline, lambda);
    let (marked, plain) = (format!("{sign}1 {x}"), format!("{sign}{x}"));
    let (is, should) = if once {
        (plain, marked)
    } else {
        (marked, plain)
    };
    format!("the {is} at {place} should be {should}")
}
