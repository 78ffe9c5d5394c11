//! Recipes with faults: in the terms and the table with the layout kept, and in the bytes.

pub mod entries;

use crate::draw::Draw;
use crate::editions::Edition;
use crate::format::{write_parts, Recipe};
use crate::generate::recipes::well_typed;
use crate::generate::starts;
use crate::limits;
use crate::nodes::{end_of_term, Node};
use crate::types::{Constant, Shape};
use entries::{change_entry, many_of_once, near_type};

/// A recipe changed in one to four places, its layout kept.
pub fn of_recipe(draw: &mut Draw, make: fn(&mut Draw) -> Recipe) -> Vec<u8> {
    let mut recipe = make(draw);
    for _ in 0..draw.pick(&[1, 1, 1, 2, 4]) {
        change(&mut recipe, draw);
    }
    let mut parts = recipe.parts();
    if draw.one_in(6) {
        change_part(&mut parts, draw);
    }
    write_parts(recipe.edition, &parts)
}

/// A file changed in one to four of its bytes or fields.
pub fn of_bytes(draw: &mut Draw, make: fn(&mut Draw) -> Recipe) -> Vec<u8> {
    let mut file = make(draw).write();
    for _ in 0..draw.pick(&[1, 1, 1, 2, 4]) {
        damage(&mut file, draw);
    }
    file
}

fn change(recipe: &mut Recipe, draw: &mut Draw) {
    match draw.below(18) {
        17 => many_of_once(recipe, draw),
        16 => change_compound_type(recipe, draw),
        12 => exchange_form(recipe, draw),
        13 => swap_subterms(recipe, draw),
        14 => double(recipe, draw),
        15 if draw.one_in(2) => change_edition(recipe, draw),
        15 => take_apart(recipe, draw),
        0 => change_entry(recipe, draw),
        1..=3 => change_operand(recipe, draw),
        10 | 11 => give_near_type(recipe, draw),
        4 => exchange_constant(recipe, draw),
        5 => exchange_subterm(recipe, draw),
        6 => drop_node(recipe, draw),
        7 => wrap(recipe, draw),
        8 => replace_leaf(recipe, draw),
        _ => change_bays(recipe, draw),
    }
}

/// Some node of some bay that the test picks out.
fn some_node(recipe: &Recipe, draw: &mut Draw, wanted: fn(Node) -> bool) -> Option<(usize, usize)> {
    let bay = draw.below(recipe.terms.len());
    let nodes = recipe.terms[bay].iter().enumerate();
    let places: Vec<usize> = nodes
        .filter(|(_, n)| wanted(**n))
        .map(|(at, _)| at)
        .collect();
    (!places.is_empty()).then(|| (bay, draw.pick(&places)))
}

/// Another index, type number, name or value.
fn change_operand(recipe: &mut Recipe, draw: &mut Draw) {
    let has_operand = |n: Node| !matches!(n, Node::Application | Node::Unit | Node::Case(_));
    let (bay, at) = match some_node(recipe, draw, has_operand) {
        Some(found) => found,
        None => return,
    };
    let types = recipe.entries.len();
    let bays = recipe.terms.len();
    let number = match draw.below(6) {
        0 => types as u8,
        1 => draw.byte(),
        _ => draw.below(types) as u8,
    };
    let node = &mut recipe.terms[bay][at];
    match node {
        Node::Variable(index) => *index = nearby(*index, draw),
        Node::Lambda(t) | Node::Constant(_, t) | Node::Pair(t) | Node::Front(t) => *t = number,
        Node::Name(k) => *k = draw.below(bays + 2) as u8,
        Node::Num(value) => *value = draw.pick(&[0, 255, 256, 1_000, 1_001, u16::MAX]),
        Node::Application | Node::Unit | Node::Case(_) => {}
    }
}

/// A pair or a front gets another type number, or one that is none.
fn change_compound_type(recipe: &mut Recipe, draw: &mut Draw) {
    let is_compound = |n: Node| matches!(n, Node::Pair(_) | Node::Front(_));
    let types = recipe.entries.len();
    if let Some((bay, at)) = some_node(recipe, draw, is_compound) {
        let number = match draw.below(4) {
            0 => types as u8,
            1 => draw.byte(),
            _ => draw.below(types) as u8,
        };
        if let Some(t) = recipe.terms[bay][at].type_number_mut() {
            *t = number;
        }
    }
}

/// A node that carries a type gets one that differs from its own in one place.
fn give_near_type(recipe: &mut Recipe, draw: &mut Draw) {
    let (bay, at) = match some_node(recipe, draw, |n| n.type_number().is_some()) {
        Some(found) => found,
        None => return,
    };
    let number = recipe.terms[bay][at].type_number().unwrap_or(0);
    let levels = draw.below(4);
    let near = near_type(recipe, draw, number, levels);
    if let Some(t) = recipe.terms[bay][at].type_number_mut() {
        *t = near;
    }
}

fn nearby(index: u8, draw: &mut Draw) -> u8 {
    match draw.below(5) {
        0 | 1 => index.wrapping_add(1),
        2 | 3 => index.wrapping_sub(1),
        _ => draw.byte(),
    }
}

/// Another edition, with its starting part or without one; or none.
fn change_edition(recipe: &mut Recipe, draw: &mut Draw) {
    recipe.edition = match recipe.edition {
        1 => draw.pick(&[2, 2, 3, 0, 4]),
        2 => draw.pick(&[1, 1, 3, 3, 0, 4, 255]),
        _ => draw.pick(&[1, 2, 2, 0, 4, 255]),
    };
    fit_starts(recipe, draw);
}

/// A starting num for each bay, where the edition has them.
fn fit_starts(recipe: &mut Recipe, draw: &mut Draw) {
    if let Some(edition) = Edition::of(recipe.edition) {
        recipe.starts = starts::nums(draw, edition, recipe.terms.len());
    }
}

/// A node of two subterms becomes another such node.
fn exchange_form(recipe: &mut Recipe, draw: &mut Draw) {
    let (bay, at) = match some_node(recipe, draw, |n| n.subterms() == 2) {
        Some(found) => found,
        None => return,
    };
    let node = recipe.terms[bay][at];
    let any = draw.below(recipe.entries.len()) as u8;
    let number = node.type_number().unwrap_or(any);
    let forms = [
        Node::Application,
        Node::Pair(number),
        Node::Front(number),
        Node::Case(Shape::Pair),
        Node::Case(Shape::List),
    ];
    let known = if recipe.edition == 1 && !draw.one_in(4) {
        1
    } else {
        forms.len()
    };
    recipe.terms[bay][at] = draw.pick(&forms[..known]);
}

/// A node with two subterms: its bay, where the two begin, and where they end.
fn some_two(recipe: &Recipe, draw: &mut Draw) -> Option<(usize, [usize; 3])> {
    let (bay, at) = some_node(recipe, draw, |n| n.subterms() == 2)?;
    let term = &recipe.terms[bay];
    let second = end_of_term(term, at + 1);
    Some((bay, [at + 1, second, end_of_term(term, second)]))
}

/// The two subterms of a node change places.
fn swap_subterms(recipe: &mut Recipe, draw: &mut Draw) {
    if let Some((bay, [first, second, end])) = some_two(recipe, draw) {
        recipe.terms[bay][first..end].rotate_left(second - first);
    }
}

/// One subterm of a node stands in the other's place too: a once-variable in both, or in none.
fn double(recipe: &mut Recipe, draw: &mut Draw) {
    let (bay, [first, second, end]) = match some_two(recipe, draw) {
        Some(found) => found,
        None => return,
    };
    let term = &mut recipe.terms[bay];
    if draw.one_in(2) {
        let kept = term[first..second].to_vec();
        term.splice(second..end, kept);
    } else {
        let kept = term[second..end].to_vec();
        term.splice(first..second, kept);
    }
}

/// A subterm becomes the subject of a case, or the body of one.
fn take_apart(recipe: &mut Recipe, draw: &mut Draw) {
    let (bay, at) = match some_node(recipe, draw, |_| true) {
        Some(found) => found,
        None => return,
    };
    let case = Node::Case(draw.pick(&[Shape::Pair, Shape::List]));
    let term = &mut recipe.terms[bay];
    if draw.one_in(2) {
        let end = end_of_term(term, at);
        let component = Node::Variable(draw.below(3) as u8);
        term.insert(end, draw.pick(&[Node::Unit, component]));
        term.insert(at, case);
    } else {
        let subjects = [Node::Unit, Node::Name(0), Node::Variable(0)];
        term.splice(at..at, [case, draw.pick(&subjects)]);
    }
}

fn exchange_constant(recipe: &mut Recipe, draw: &mut Draw) {
    let is_constant = |n: Node| matches!(n, Node::Constant(_, _));
    let all = [
        Constant::Cell,
        Constant::Exch,
        Constant::Thread,
        Constant::Handle,
    ];
    if let Some((bay, at)) = some_node(recipe, draw, is_constant) {
        if let Node::Constant(c, _) = &mut recipe.terms[bay][at] {
            *c = draw.pick(&all);
        }
    }
}

/// A subterm stands where another stood.
fn exchange_subterm(recipe: &mut Recipe, draw: &mut Draw) {
    let (from, start, to, at) = match (
        some_node(recipe, draw, |_| true),
        some_node(recipe, draw, |_| true),
    ) {
        (Some((from, start)), Some((to, at))) => (from, start, to, at),
        _ => return,
    };
    let end = end_of_term(&recipe.terms[from], start);
    let copied = recipe.terms[from][start..end].to_vec();
    let end = end_of_term(&recipe.terms[to], at);
    recipe.terms[to].splice(at..end, copied);
}

/// A lambda gives way to its body, an application to its function or its argument.
fn drop_node(recipe: &mut Recipe, draw: &mut Draw) {
    let (bay, at) = match some_node(recipe, draw, |n| n.subterms() > 0) {
        Some(found) => found,
        None => return,
    };
    let term = &mut recipe.terms[bay];
    if term[at].subterms() == 2 {
        let middle = end_of_term(term, at + 1);
        let end = end_of_term(term, middle);
        if draw.one_in(2) {
            term.drain(middle..end);
        } else {
            term.drain(at + 1..middle);
        }
    }
    term.remove(at);
}

/// A lambda around a subterm, or a subterm applied to another.
fn wrap(recipe: &mut Recipe, draw: &mut Draw) {
    let (bay, at) = match some_node(recipe, draw, |_| true) {
        Some(found) => found,
        None => return,
    };
    let number = draw.below(recipe.entries.len()) as u8;
    let kinds = if recipe.edition == 1 { 3 } else { 5 };
    let around = match draw.below(kinds) {
        0 => vec![Node::Lambda(number)],
        1 => vec![Node::Application, Node::Unit],
        3 => vec![Node::Pair(number), Node::Unit],
        4 => vec![Node::Front(number), Node::Num(3)],
        _ => vec![Node::Application, Node::Lambda(number), Node::Variable(0)],
    };
    recipe.terms[bay].splice(at..at, around);
}

fn replace_leaf(recipe: &mut Recipe, draw: &mut Draw) {
    let (bay, at) = match some_node(recipe, draw, |n| n.subterms() == 0) {
        Some(found) => found,
        None => return,
    };
    let number = draw.below(recipe.entries.len()) as u8;
    recipe.terms[bay][at] = match draw.below(5) {
        0 => Node::Unit,
        1 => Node::Num(5),
        2 => Node::Name(0),
        3 => Node::Variable(draw.below(3) as u8),
        _ => Node::Constant(Constant::Thread, number),
    };
}

/// A bay more or less, down to one and up to one too many; now and then without its starting num.
fn change_bays(recipe: &mut Recipe, draw: &mut Draw) {
    let some = recipe.terms[draw.below(recipe.terms.len())].clone();
    match draw.below(4) {
        0 if recipe.terms.len() > 1 => {
            recipe.terms.pop();
        }
        1 => recipe.terms.resize(limits::MAX_BAYS, some),
        2 if draw.one_in(3) => recipe.terms.resize(limits::MAX_BAYS + 1, vec![Node::Unit]),
        _ => recipe.terms.push(some),
    }
    if !draw.one_in(4) {
        fit_starts(recipe, draw);
    }
}

/// A part with other bytes, the pairs telling the truth about it.
fn change_part(parts: &mut [Vec<u8>], draw: &mut Draw) {
    let at = draw.below(parts.len());
    let part = &mut parts[at];
    let byte = draw.below(part.len().max(1));
    match draw.below(5) {
        0 => part.truncate(byte),
        1 => part.push(draw.byte()),
        2 if byte < part.len() => part[byte] = draw.pick(&[2, 10, 11, 12, 13, 14, 255]),
        3 => part.insert(byte.min(part.len()), draw.below(15) as u8),
        _ => part.extend([3; 3]),
    }
}

fn damage(file: &mut Vec<u8>, draw: &mut Draw) {
    if file.is_empty() {
        return;
    }
    let at = draw.below(file.len());
    match draw.below(12) {
        0 => file[at] ^= 1 << draw.below(8),
        1 => file[at] = draw.byte(),
        2 => file[at] = draw.below(15) as u8,
        3 => file.truncate(at),
        4 => file.extend((0..draw.between(1, 9)).map(|_| 3)),
        5 => file.insert(at, draw.below(15) as u8),
        6 => {
            file.remove(at);
        }
        7 => file.swap(0, at),
        8 => damage_at(file, draw, 0, 4),
        9 => damage_at(file, draw, 4, 12),
        10 => damage_at(file, draw, 12, 40),
        _ => resize(file, draw),
    }
}

/// A byte between two positions made one more or less, or anything.
fn damage_at(file: &mut [u8], draw: &mut Draw, from: usize, to: usize) {
    let at = draw.between(from, to - 1);
    if let Some(byte) = file.get_mut(at) {
        *byte = match draw.below(3) {
            0 => byte.wrapping_add(1),
            1 => byte.wrapping_sub(1),
            _ => draw.byte(),
        };
    }
}

/// A file of a length near the limits.
fn resize(file: &mut Vec<u8>, draw: &mut Draw) {
    let lengths = [0, 1, 3, 4, 11, 12, 13, 20, 8_191, 8_192, 8_193, 9_000];
    file.resize(draw.pick(&lengths), 3);
}

/// A file of about 8,192 bytes whose last part opens thousands of nodes, whole or cut.
pub fn giant(draw: &mut Draw) -> Vec<u8> {
    let recipe = well_typed(draw);
    let mut parts = recipe.parts();
    let kept = parts.len() - recipe.terms.len() + draw.below(3);
    parts.truncate(kept.min(parts.len()));
    let length = draw.pick(&[8_190, 8_191, 8_192, 8_193, 4_000, 3_000]);
    let fixed = 4 + 4 * (parts.len() + 1) + parts.iter().map(Vec::len).sum::<usize>();
    let room = length.max(fixed + 3) - fixed;
    let many = draw.pick(&[room / 2, room / 2, room, 0]);
    let mut part = match draw.below(5) {
        0 => [vec![2; many], vec![3; room - many]].concat(),
        3 => [vec![13; many], vec![3; room - many]].concat(),
        4 => [12, 3].repeat(room / 2),
        1 => [2, 3].repeat(room / 2),
        _ => [1, 3].repeat(room / 2),
    };
    part.resize(room, 3);
    if draw.one_in(4) {
        part[room - 1] = draw.pick(&[10, 200, 4]);
    }
    parts.push(part);
    write_parts(recipe.edition, &parts)
}
