//! The comparison finds impostors that know pairs and lists only by half (document 02, T-03).

mod impostor;

use impostor::*;
use model::answers::{SteppedAnswer, VerdictAnswer, DONE, REFUSED, RULE};
use model::causes;
use model::config::{Component, Configuration};
use model::editions::{FIRST, SECOND};
use model::expression::{front, pair, Case, Expression};
use model::format::{parts, write_parts};
use model::image::{read_image, write_image};
use model::limits;
use model::nodes::{end_of_term, read_term, standings, write_term, Node, FORMS};
use model::rules;
use model::subjects::case_at;
use model::table::{entries_of, Entry, MANY_LIST, MANY_PAIR, ONCE_LIST, ONCE_PAIR};
use model::tool::outline::Binder;
use model::tool::text::printer::Printer;
use model::tool::text::spelling::UNICODE;
use model::tool::text::type_texts::TypeTexts;
use model::types::Shape;
use std::rc::Rc;

/// Enough recipes and images that the rarer situations come.
const MANY: u64 = 2_500;

fn refused(refusal: u32) -> VerdictAnswer {
    VerdictAnswer {
        refusal,
        ..VerdictAnswer::default()
    }
}

fn step_refused(number: u32) -> SteppedAnswer {
    SteppedAnswer {
        outcome: REFUSED,
        number,
        length: 0,
    }
}

/// Whether the answer is this refusal.
fn is_refused(answer: &SteppedAnswer, number: u32) -> bool {
    *answer == step_refused(number)
}

/// The entries and terms of a recipe of edition 2.
fn parts_of(recipe: &[u8]) -> Option<(Vec<Entry>, Vec<Vec<Node>>)> {
    if recipe.len() < limits::MIN_FILE || recipe[2] != SECOND.number {
        return None;
    }
    let found = parts(SECOND, recipe)?;
    let terms = found.terms.iter().map(|term| read_term(&FORMS, term));
    let terms: Option<Vec<_>> = terms.collect();
    Some((entries_of(found.table), terms?))
}

/// Every node of the recipe; none where a part is no term.
fn nodes_of(recipe: &[u8]) -> Vec<Node> {
    let parts = parts_of(recipe);
    parts.map_or(Vec::new(), |(_, terms)| terms.concat())
}

/// The recipe with other entries.
fn with_entries(recipe: &[u8], change: fn(&[Entry], Entry) -> Entry) -> Option<Vec<u8>> {
    let (entries, terms) = parts_of(recipe)?;
    let changed = entries.iter().map(|e| change(&entries, *e));
    let table = changed.flat_map(|e| e.bytes()).collect();
    let mut parts: Vec<Vec<u8>> = vec![table];
    parts.extend(terms.iter().map(|term| write_term(term)));
    Some(write_parts(recipe[2], &parts))
}

/// The expression with `change` made of each node, from the leaves up.
fn mapped(e: &Expression, change: fn(Expression) -> Expression) -> Rc<Expression> {
    let inner = |e: &Expression| mapped(e, change);
    let rebuilt = match e {
        Expression::Lambda(t, x, body) => Expression::Lambda(*t, *x, inner(body)),
        Expression::Application(e1, e2) => Expression::Application(inner(e1), inner(e2)),
        Expression::Pair(t, e1, e2) => Expression::Pair(*t, inner(e1), inner(e2)),
        Expression::Front(t, e1, e2) => Expression::Front(*t, inner(e1), inner(e2)),
        Expression::Case(case) => Expression::Case(Case {
            subject: inner(&case.subject),
            body: inner(&case.body),
            ..case.clone()
        }),
        other => other.clone(),
    };
    Rc::new(change(rebuilt))
}

/// The image with `change` made of each node.
fn with_image(image: &[u8], change: fn(Expression) -> Expression) -> Option<Vec<u8>> {
    let now = read_image(image)?;
    let component = |component: &Component| match component {
        Component::Thread(e) => Component::Thread(mapped(e, change)),
        Component::Cell(e) => Component::Cell(mapped(e, change)),
        other => other.clone(),
    };
    let changed = Configuration {
        components: now.components.iter().map(component).collect(),
        ..now
    };
    Some(write_image(&changed))
}

/// A step as the model makes it of the changed image, and the change undone; for a change that undoes
/// itself.
fn step_changed(
    image: &[u8],
    thread: u64,
    out: &mut [u8],
    change: fn(Expression) -> Expression,
) -> SteppedAnswer {
    let changed = match with_image(image, change) {
        Some(changed) => changed,
        None => return step(image, thread, out),
    };
    let answer = step(&changed, thread, out);
    if answer.outcome == RULE {
        let written = &out[..answer.length as usize];
        let back = with_image(written, change).expect("an image");
        out[..back.len()].copy_from_slice(&back);
    }
    answer
}

/// A case with its two variables the other way round.
fn other_way_round(e: Expression) -> Expression {
    match e {
        Expression::Case(case) => Expression::Case(Case {
            x: case.y,
            y: case.x,
            ..case
        }),
        other => other,
    }
}

/// The components of pairs and fronts too.
fn mirrored(e: Expression) -> Expression {
    match e {
        Expression::Pair(t, e1, e2) => (*pair(t, e2, e1)).clone(),
        Expression::Front(t, e1, e2) => (*front(t, e2, e1)).clone(),
        other => other_way_round(other),
    }
}

/// The image's configuration, and the case that the thread is at.
fn case_in(image: &[u8], thread: u64) -> Option<(Configuration, Case)> {
    let configuration = read_image(image)?;
    let case = case_at(&configuration, thread)?;
    Some((configuration, case))
}

#[test]
fn a_stepper_with_the_indices_the_other_way_round() {
    let wrong: Step = |image, thread, out| step_changed(image, thread, out, other_way_round);
    assert!(is_found_among(&with_step(wrong), MANY));
}

#[test]
fn a_checker_with_the_indices_the_other_way_round() {
    let wrong: Check = |recipe| {
        let turned = parts_of(recipe).map(|(entries, terms)| {
            let table = entries.iter().flat_map(|e| e.bytes()).collect();
            let mut parts: Vec<Vec<u8>> = vec![table];
            for term in terms {
                let turned = mapped(&Expression::of_nodes(&term), other_way_round);
                parts.push(write_term(&turned.nodes()));
            }
            write_parts(recipe[2], &parts)
        });
        match turned {
            // an index that nothing binds is no variable to turn
            Some(turned) if check(recipe).refusal != causes::SCOPE => check(&turned),
            _ => check(recipe),
        }
    };
    assert!(is_found_among(&with_check(wrong), MANY));
}

/// Whether some index is too high where the last subterm of a case has so many variables more, and the
/// first so many.
fn has_high_index(term: &[Node], subject: usize, body: usize) -> bool {
    fn walk(term: &[Node], at: &mut usize, variables: usize, more: (usize, usize)) -> bool {
        let node = term[*at];
        *at += 1;
        let (first, last) = match node {
            Node::Case(_) => more,
            _ => (0, node.binders()),
        };
        let mut high = matches!(node, Node::Variable(index) if usize::from(index) >= variables);
        for place in 0..node.subterms() {
            let is_last = place + 1 == node.subterms();
            let inner = variables + if is_last { last } else { first };
            high |= walk(term, at, inner, more);
        }
        high
    }
    walk(term, &mut 0, 0, (subject, body))
}

#[test]
fn a_checker_whose_case_has_one_variable_more_and_not_two() {
    let wrong: Check = |recipe| {
        let answer = check(recipe);
        let terms = parts_of(recipe).map_or(Vec::new(), |(_, terms)| terms);
        let small = answer.refusal == 0 || answer.refusal > causes::SCOPE;
        if small && terms.iter().any(|term| has_high_index(term, 0, 1)) {
            return refused(causes::SCOPE);
        }
        answer
    };
    assert!(is_found(&with_check(wrong)));
}

#[test]
fn a_checker_whose_case_has_its_subject_in_the_scope() {
    let wrong: Check = |recipe| {
        let answer = check(recipe);
        let (entries, terms) = match parts_of(recipe) {
            Some(parts) if answer.refusal == causes::SCOPE => parts,
            _ => return answer,
        };
        let names_nothing = |node: &Node| match node {
            Node::Name(k) => usize::from(*k) >= terms.len(),
            _ => node
                .type_number()
                .map_or(false, |t| usize::from(t) >= entries.len()),
        };
        let high = terms.iter().any(|term| has_high_index(term, 2, 2));
        if !high && !terms.concat().iter().any(names_nothing) {
            return refused(causes::TYPE);
        }
        answer
    };
    assert!(is_found_among(&with_check(wrong), MANY));
}

#[test]
fn a_stepper_whose_case_has_one_variable_more_and_not_two() {
    let wrong: Step = |image, thread, out| {
        let answer = step(image, thread, out);
        let now = match read_image(image) {
            Some(now) if answer.outcome != REFUSED => now,
            _ => return answer,
        };
        let expressions = now.components.iter().filter_map(Component::expression);
        if expressions
            .into_iter()
            .any(|e| has_high_index(&e.nodes(), 0, 1))
        {
            return BROKEN;
        }
        answer
    };
    assert!(is_found(&with_step(wrong)));
}

#[test]
fn a_checker_that_takes_the_rest_of_a_list_for_an_element() {
    let wrong: Check = |recipe| {
        let answer = check(recipe);
        let has_front = || nodes_of(recipe).iter().any(|n| matches!(n, Node::Front(_)));
        if answer.refusal == 0 && has_front() {
            return refused(causes::TYPE);
        }
        answer
    };
    assert!(is_found(&with_check(wrong)));
}

#[test]
fn a_stepper_that_takes_the_second_component_first() {
    let wrong: Step = |image, thread, out| step_changed(image, thread, out, mirrored);
    assert!(is_found_among(&with_step(wrong), MANY));
}

#[test]
fn a_stepper_that_follows_a_name_in_a_pair() {
    let wrong: Step = |image, thread, out| {
        let answer = step(image, thread, out);
        let now = match read_image(image) {
            Some(now) if answer.outcome == DONE => now,
            _ => return answer,
        };
        let is_done = |e: &Expression| match e {
            Expression::Name(y) => {
                matches!(now.get(*y), Component::Thread(e) if e.is_value())
            }
            _ => false,
        };
        let follows = match now.components[thread as usize].expression().map(|e| &**e) {
            Some(Expression::Pair(_, e1, e2) | Expression::Front(_, e1, e2)) => {
                is_done(e1) || is_done(e2)
            }
            _ => false,
        };
        if follows {
            return SteppedAnswer {
                outcome: RULE,
                number: rules::FUTURE_DEREF.into(),
                length: image.len() as u64,
            };
        }
        answer
    };
    assert!(is_found_among(&with_step(wrong), MANY));
}

#[test]
fn a_stepper_that_says_16_of_a_used_handle_as_subject() {
    let wrong: Step = |image, thread, out| {
        let answer = step(image, thread, out);
        let used = case_in(image, thread).map_or(false, |(now, case)| match *case.subject {
            Expression::Name(y) => *now.get(y) == Component::UsedHandle,
            _ => false,
        });
        if used && is_refused(&answer, causes::WRONG_KIND) {
            return step_refused(causes::USED_HANDLE);
        }
        answer
    };
    assert!(is_found_among(&with_step(wrong), MANY));
}

/// A stepper that goes by this rule where a case has a subject of the other shape.
fn goes_on_the_other(image: &[u8], thread: u64, out: &mut [u8], shape: Shape) -> SteppedAnswer {
    let answer = step(image, thread, out);
    let other = case_in(image, thread).map_or(false, |(_, case)| {
        let is_other = match shape {
            Shape::Pair => matches!(*case.subject, Expression::Front(..)),
            Shape::List => matches!(*case.subject, Expression::Pair(..)),
        };
        case.shape == shape && is_other
    });
    if !other || !is_refused(&answer, causes::WRONG_KIND) {
        return answer;
    }
    let fitting = with_image(image, |e| match e {
        Expression::Case(case) => Expression::Case(Case {
            shape: match *case.subject {
                Expression::Front(..) => Shape::List,
                _ => Shape::Pair,
            },
            ..case
        }),
        other => other,
    });
    step(&fitting.expect("an image"), thread, out)
}

#[test]
fn a_stepper_that_takes_a_front_apart_as_a_pair_or_a_pair_as_a_front() {
    let front: Step = |image, thread, out| goes_on_the_other(image, thread, out, Shape::Pair);
    let pair: Step = |image, thread, out| goes_on_the_other(image, thread, out, Shape::List);
    for step in [front, pair] {
        assert!(is_found(&with_step(step)));
    }
}

#[test]
fn a_checker_that_lets_a_many_pair_or_list_have_once_contents() {
    let wrong: Check = |recipe| {
        let answer = check(recipe);
        let once = with_entries(recipe, |entries, e| {
            let is_once = |x: u8| entries.get(usize::from(x)).map_or(false, |e| e.is_once());
            let kind = match e.kind {
                MANY_PAIR if is_once(e.p) || is_once(e.q) => ONCE_PAIR,
                MANY_LIST if is_once(e.p) => ONCE_LIST,
                other => other,
            };
            Entry { kind, ..e }
        });
        match once {
            Some(once) if answer.refusal == causes::TYPE_ENTRY => check(&once),
            _ => answer,
        }
    };
    assert!(is_found_among(&with_check(wrong), MANY));
}

#[test]
fn a_checker_that_takes_a_once_list_for_many() {
    let wrong: Check = |recipe| {
        let answer = check(recipe);
        let many = with_entries(recipe, |_, e| match e.kind {
            ONCE_LIST => Entry {
                kind: MANY_LIST,
                ..e
            },
            _ => e,
        });
        let found = many.map(|many| check(&many)).unwrap_or(answer);
        match found.refusal {
            causes::TYPE_ENTRY => answer,
            _ => found,
        }
    };
    assert!(is_found_among(&with_check(wrong), MANY));
}

#[test]
fn a_checker_that_takes_a_once_pair_for_many() {
    let wrong: Check = |recipe| {
        let answer = check(recipe);
        let once_pair = |number: u8| {
            let (entries, _) = parts_of(recipe).unwrap_or_default();
            let e = entries.get(usize::from(number)).copied();
            e.map_or(false, |e| e.kind == ONCE_PAIR)
        };
        let roots = parts_of(recipe).map_or(Vec::new(), |(_, terms)| terms);
        let pair_at_root = |term: &Vec<Node>| matches!(term[0], Node::Pair(t) if once_pair(t));
        if answer.refusal == causes::BAY_ONCE && roots.iter().any(pair_at_root) {
            return VerdictAnswer {
                bays: roots.len() as u32,
                ..VerdictAnswer::default()
            };
        }
        answer
    };
    assert!(is_found_among(&with_check(wrong), MANY));
}

/// How often a variable is used, the two components of a pair or front counted as one.
fn uses(printer: &Printer, at: usize, binder: Binder) -> usize {
    let nodes = printer.nodes;
    let mut counts = Vec::new();
    let mut next = at + 1;
    for _ in 0..nodes[at].subterms() {
        counts.push(uses(printer, next, binder));
        next = end_of_term(nodes, next);
    }
    match nodes[at] {
        Node::Variable(index) => usize::from(printer.outline.binder(at, index) == Some(binder)),
        Node::Pair(_) | Node::Front(_) => counts.into_iter().max().unwrap_or(0),
        _ => counts.into_iter().sum(),
    }
}

/// Whether every once-variable is used once when counted so.
fn is_linear_by_half(entries: &[Entry], nodes: &[Node]) -> bool {
    let texts = TypeTexts::new(entries, &UNICODE);
    let printer = Printer::new(nodes, &texts);
    let is_once = |t: u8| entries[usize::from(t)].is_once();
    let binders = (0..nodes.len()).flat_map(|node| {
        let places = 0..nodes[node].binders();
        places.map(move |place| Binder { node, place })
    });
    let mut once = binders.filter(|binder| printer.variable_type(*binder).map_or(false, is_once));
    once.all(|binder| uses(&printer, binder.node, binder) == 1)
}

#[test]
fn a_checker_that_lets_a_once_variable_stand_in_both_components() {
    let wrong: Check = |recipe| {
        let answer = check(recipe);
        let (entries, terms) = match parts_of(recipe) {
            Some(parts) if answer.refusal == causes::LINEARITY => parts,
            _ => return answer,
        };
        if terms.iter().all(|term| is_linear_by_half(&entries, term)) {
            return VerdictAnswer {
                bays: terms.len() as u32,
                ..VerdictAnswer::default()
            };
        }
        answer
    };
    assert!(is_found_among(&with_check(wrong), MANY));
}

/// An edition 1 file that would be terms in edition 2.
fn has_later_tags(recipe: &[u8]) -> bool {
    let is_term = |term: &&[u8]| read_term(&FORMS, term).is_some();
    let terms = parts(FIRST, recipe).map_or(Vec::new(), |found| found.terms);
    recipe[2] == FIRST.number && terms.iter().all(is_term)
}

#[test]
fn a_checker_that_refuses_edition_1_with_tag_10_by_4_or_7_or_not() {
    let entry: Check = |recipe| later_tags_refused(recipe, causes::TYPE_ENTRY);
    let scope: Check = |recipe| later_tags_refused(recipe, causes::SCOPE);
    let not: Check = |recipe| {
        let mut second = recipe.to_vec();
        if check(recipe).refusal == causes::NO_TERM && has_later_tags(recipe) {
            second[2] = SECOND.number;
        }
        check(&second)
    };
    for check in [entry, scope, not] {
        assert!(is_found_among(&with_check(check), MANY));
    }
}

fn later_tags_refused(recipe: &[u8], refusal: u32) -> VerdictAnswer {
    let answer = check(recipe);
    if answer.refusal == causes::NO_TERM && has_later_tags(recipe) {
        return refused(refusal);
    }
    answer
}

#[test]
fn a_checker_that_knows_the_new_kinds_in_edition_1_too() {
    let wrong: Check = |recipe| {
        let answer = check(recipe);
        if answer.refusal != causes::TYPE_ENTRY || recipe[2] != FIRST.number {
            return answer;
        }
        let mut second = recipe.to_vec();
        second[2] = SECOND.number;
        check(&second)
    };
    assert!(is_found_among(&with_check(wrong), MANY));
}

/// A stepper that forgets the nodes of the first or of the second component in the room that it needs.
fn forgets(image: &[u8], thread: u64, out: &mut [u8], first: bool) -> SteppedAnswer {
    let answer = step(image, thread, out);
    let (now, case) = match case_in(image, thread) {
        Some(found) if is_refused(&answer, causes::ROOM) => found,
        _ => return answer,
    };
    let (v1, v2) = match &*case.subject {
        Expression::Pair(_, v1, v2) | Expression::Front(_, v1, v2) => (v1, v2),
        _ => return answer,
    };
    let unit = Rc::new(Expression::Unit);
    let (v1, v2) = if first { (&unit, v2) } else { (v1, &unit) };
    let body = case.body.substitute(case.x, v1).substitute(case.y, v2);
    let before = Expression::Case(case.clone()).size();
    if now.nodes() - before + body.size() > limits::MAX_NODES {
        return answer;
    }
    SteppedAnswer {
        outcome: RULE,
        number: rules::CASE_PAIR.into(),
        length: image.len() as u64,
    }
}

#[test]
fn a_stepper_that_forgets_the_nodes_of_one_value_in_the_room() {
    let first: Step = |image, thread, out| forgets(image, thread, out, true);
    let second: Step = |image, thread, out| forgets(image, thread, out, false);
    for step in [first, second] {
        assert!(is_found_among(&with_step(step), 4 * MANY));
    }
}

#[test]
fn a_checker_that_counts_a_case_as_a_many_lambda() {
    let wrong: Check = |recipe| {
        let answer = check(recipe);
        let terms = parts_of(recipe).map_or(Vec::new(), |(_, terms)| terms);
        let (entries, _) = parts_of(recipe).unwrap_or_default();
        if answer.refusal == 0 && terms.iter().any(|term| is_free_under_case(&entries, term)) {
            return refused(causes::LINEARITY);
        }
        answer
    };
    assert!(is_found_among(&with_check(wrong), MANY));
}

/// Whether a once-variable from outside stands in the body of a case.
fn is_free_under_case(entries: &[Entry], nodes: &[Node]) -> bool {
    let texts = TypeTexts::new(entries, &UNICODE);
    let printer = Printer::new(nodes, &texts);
    let stands = standings(nodes);
    let cases = (0..nodes.len()).filter(|at| matches!(nodes[*at], Node::Case(_)));
    cases.into_iter().any(|case| {
        let body = end_of_term(nodes, case + 1);
        let is_outside = |at: usize| match nodes[at] {
            Node::Variable(index) => {
                let binder = printer.outline.binder(at, index);
                let once = binder.and_then(|binder| printer.variable_type(binder));
                let once = once.map_or(false, |t| entries[usize::from(t)].is_once());
                let place = stands[at].variables - 1 - usize::from(index);
                once && place < stands[case].variables
            }
            _ => false,
        };
        (body..end_of_term(nodes, case)).any(is_outside)
    })
}
