//! Causes 7 to 11 are absent exactly when every term has a derivation by Figs. 8 to 10 with a type
//! of multiplicity many: on well-typed terms, on changed ones, and on terms of any nodes.

use model::draw::Draw;
use model::editions::SECOND;
use model::generate::mutants;
use model::generate::recipes::{careless, file, well_typed};
use model::nodes::Node;
use model::table::{entry, Table, FIRST_ENTRIES};
use model::types::{Constant, Shape};
use model::verdict::{derived_types, read_recipe, refuse_if_any_unfit};

/// The two ways on one recipe; whether it was accepted.
fn agree(table: &Table, terms: &[Vec<Node>]) -> bool {
    let accepted = refuse_if_any_unfit(table, terms).is_ok();
    let derived = derived_types(table, terms).is_some();
    assert_eq!(accepted, derived, "{terms:?}");
    accepted
}

#[test]
fn on_the_corpus() {
    let mut draw = Draw::new(7);
    for round in 0..4_000 {
        let made = match round % 4 {
            0 => file(&mut draw),
            1 => careless(&mut draw).write(),
            _ => mutants::of_recipe(&mut draw, well_typed),
        };
        if let Ok(recipe) = read_recipe(&made) {
            agree(&recipe.table, &recipe.terms);
        }
    }
}

/// Any term at all, root first, over a small table.
fn any_term(draw: &mut Draw, nodes: &mut Vec<Node>, fuel: &mut usize) {
    let constants = [
        Constant::Cell,
        Constant::Exch,
        Constant::Thread,
        Constant::Handle,
    ];
    let number = draw.below(13) as u8;
    let leaf = *fuel == 0;
    *fuel = fuel.saturating_sub(1);
    match draw.below(if leaf { 6 } else { 10 }) {
        0 | 1 => nodes.push(Node::Variable(draw.pick(&[0, 0, 0, 1, 1, 2]))),
        2 => nodes.push(Node::Unit),
        3 => nodes.push(Node::Num(3)),
        4 => nodes.push(Node::Name(draw.pick(&[0, 0, 0, 1]))),
        5 => nodes.push(Node::Constant(draw.pick(&constants), number)),
        6 | 7 => {
            nodes.push(Node::Lambda(number));
            any_term(draw, nodes, fuel);
        }
        _ => {
            nodes.push(Node::Application);
            any_term(draw, nodes, fuel);
            any_term(draw, nodes, fuel);
        }
    }
}

#[test]
fn on_terms_of_any_nodes() {
    let mut entries = FIRST_ENTRIES.to_vec();
    entries.extend([
        entry(3, 0, 0),
        entry(4, 0, 0),
        entry(3, 3, 0),
        entry(4, 3, 0),
    ]);
    entries.extend([
        entry(4, 4, 0),
        entry(4, 3, 3),
        entry(3, 3, 3),
        entry(4, 0, 3),
    ]);
    entries.push(entry(4, 1, 1));
    let table = Table::read(SECOND, &entries).expect("a sound table");
    let mut draw = Draw::new(8);
    let mut accepted = 0;
    for _ in 0..300_000 {
        let mut nodes = Vec::new();
        any_term(&mut draw, &mut nodes, &mut 6);
        accepted += usize::from(agree(&table, &[nodes]));
    }
    assert!(accepted > 1_000, "{accepted}");
}

/// Any term of pairs, fronts, cases, lambdas and applications over a small table: 3 unit once to unit,
/// 4 unit ×ω unit, 5 the once pair of 3 and 3, 6 unit ×1 3, 7 the once list of 3; lambdas 8 to 11.
fn any_compound(draw: &mut Draw, nodes: &mut Vec<Node>, fuel: &mut usize) {
    let leaf = *fuel == 0;
    *fuel = fuel.saturating_sub(1);
    let node = match draw.below(if leaf { 4 } else { 11 }) {
        0..=2 => Node::Variable(draw.pick(&[0, 0, 0, 1, 1, 2])),
        3 => Node::Unit,
        4 => Node::Lambda(draw.between(8, 11) as u8),
        5 => Node::Application,
        6 | 7 => Node::Pair(draw.between(4, 6) as u8),
        8 => Node::Front(7),
        9 => Node::Case(Shape::List),
        _ => Node::Case(Shape::Pair),
    };
    nodes.push(node);
    for _ in 0..node.subterms() {
        any_compound(draw, nodes, fuel);
    }
}

#[test]
fn on_pairs_fronts_and_cases_of_any_components() {
    let mut entries = FIRST_ENTRIES.to_vec();
    entries.extend([entry(3, 0, 0), entry(6, 0, 0), entry(5, 3, 3)]);
    entries.extend([entry(5, 0, 3), entry(7, 3, 0)]);
    entries.extend([entry(4, 5, 5), entry(4, 6, 0)]);
    entries.extend([entry(4, 7, 7), entry(3, 3, 6)]);
    let table = Table::read(SECOND, &entries).expect("a sound table");
    let mut draw = Draw::new(9);
    let mut counts = [0; 14];
    for _ in 0..400_000 {
        let (lambda, shape) = draw.pick(&[(8, Shape::Pair), (9, Shape::Pair), (10, Shape::List)]);
        let mut nodes = vec![Node::Lambda(lambda)];
        if !draw.one_in(4) {
            nodes.extend([Node::Case(shape), Node::Variable(0)]);
        }
        let fuel = draw.between(1, 4);
        any_compound(&mut draw, &mut nodes, &mut { fuel });
        let terms = [nodes];
        if agree(&table, &terms) {
            let node_tags = terms[0].iter().map(|node| usize::from(node.tag()));
            node_tags.for_each(|tag| counts[tag] += 1);
        }
    }
    println!("nodes of accepted terms, by tag: {counts:?}");
    assert!(counts[10..].iter().all(|count| *count > 100), "{counts:?}");
}
