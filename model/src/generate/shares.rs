//! Configurations about the shares of the separate profile (document 02, T-09): of several bays and gaps
//! between them, in which a rule's outcome has a bay at its share, or one or two above or below it.

use crate::config::{Component, Configuration};
use crate::draw::Draw;
use crate::generate::configurations::{
    configuration_of, growing, growing_case, meeting_a_name, threads_of, tree,
};
use crate::image::write_image;
use crate::limits;
use crate::nodes::Node;
use crate::profile::{owned, share};
use crate::reduce::{move_of, Move};

/// An image about the shares, and a thread that a rule would move, if there is one.
pub fn image(draw: &mut Draw) -> (Vec<u8>, u64) {
    let (configuration, thread) = configuration(draw);
    (write_image(&configuration), thread as u64)
}

/// The same before it is bytes.
pub fn configuration(draw: &mut Draw) -> (Configuration, usize) {
    let bays = match draw.below(3) {
        0 => draw.between(1, 3),
        _ => draw.between(4, limits::MAX_BAYS),
    };
    let mut now = of_bays(draw, bays);
    let thread = match some_mover(draw, &now) {
        Some(thread) => thread,
        None => return (now, 0),
    };
    for _ in 0..draw.pick(&[1, 1, 1, 2]) {
        let next = outcome(&now, thread).expect("more names do not stop it");
        let bay = bay_to_fill(draw, bays, thread, (&now, &next));
        let have = owned(&next, bay);
        let may = share(bays);
        let more = draw.below(5);
        if draw.one_in(2) {
            let nodes = (may.nodes + more).saturating_sub(have.nodes + 2);
            fill_nodes(draw, &mut now, bay, nodes);
        } else {
            let names = (may.names + more).saturating_sub(have.names + 2);
            fill_names(draw, &mut now, bay, names);
        }
    }
    (now, thread)
}

/// A few names of some of these bays, the last among them: most threads are about to move.
fn of_bays(draw: &mut Draw, bays: usize) -> Configuration {
    let names = draw.pick(&[2, 4, 6, 8]);
    let mut now = configuration_of(draw, names, 3);
    let own: Vec<u8> = (0..draw.between(2, 4))
        .map(|_| draw.below(bays) as u8)
        .collect();
    for owner in &mut now.owners {
        *owner = draw.pick(&own);
    }
    for handle in 0..now.names() {
        if let Component::OpenHandle(future) = now.components[handle] {
            now.owners[handle] = now.owners[usize::from(future)];
        }
    }
    for thread in threads_of(&now) {
        let nodes = match draw.below(9) {
            0 => growing(draw),
            1 => growing_case(draw),
            2 => shrinking(draw),
            3 => {
                let nodes = draw.between(1, 30);
                value(nodes)
            }
            4 => {
                let needed = Node::Name(draw.below(names) as u8);
                vec![Node::Application, needed, Node::Unit]
            }
            _ => meeting_a_name(draw, &now),
        };
        now.components[thread] = Component::Thread(tree(&nodes));
    }
    one_name_more(draw, &mut now, bays - 1);
    now
}

/// (λx. unit) v: what falls away may bring a bay back to its share.
fn shrinking(draw: &mut Draw) -> Vec<Node> {
    let mut term = vec![Node::Application, Node::Lambda(1), Node::Unit];
    term.extend(value(draw.between(1, 30)));
    term
}

/// A value of that many nodes: lambdas around unit.
fn value(nodes: usize) -> Vec<Node> {
    let mut value = vec![Node::Lambda(4); nodes - 1];
    value.push(Node::Unit);
    value
}

/// What a rule makes of a step of that thread.
fn outcome(now: &Configuration, thread: usize) -> Option<Configuration> {
    match move_of(now, thread) {
        Move::Rule(_, next) => Some(next),
        _ => None,
    }
}

/// A thread that a rule moves; more often one that changes another bay.
fn some_mover(draw: &mut Draw, now: &Configuration) -> Option<usize> {
    let with_outcome = |thread: usize| Some((thread, outcome(now, thread)?));
    let movers = threads_of(now).into_iter().filter_map(with_outcome);
    let (across, others): (Vec<_>, Vec<_>) =
        movers.partition(|(thread, next)| !others(*thread, now, next).is_empty());
    let preferred = !across.is_empty() && (others.is_empty() || draw.below(3) > 0);
    let movers = if preferred { across } else { others };
    if movers.is_empty() {
        return None;
    }
    Some(movers[draw.below(movers.len())].0)
}

/// The other bays that a step of that thread gives or takes something.
fn others(thread: usize, now: &Configuration, next: &Configuration) -> Vec<usize> {
    let own = usize::from(now.owners[thread]);
    let changed = |bay: &usize| *bay != own && owned(now, *bay) != owned(next, *bay);
    (0..limits::MAX_BAYS).filter(changed).collect()
}

/// The stepping thread's bay, another that the rule gives or takes something, or any.
fn bay_to_fill(
    draw: &mut Draw,
    bays: usize,
    thread: usize,
    (now, next): (&Configuration, &Configuration),
) -> usize {
    let own = usize::from(now.owners[thread]);
    let others = others(thread, now, next);
    match draw.below(4) {
        0 => draw.below(bays),
        1 | 2 if !others.is_empty() => draw.pick(&others),
        _ => own,
    }
}

/// So many nodes more of that bay, in one cell or thread or in two; as many as an image can have.
fn fill_nodes(draw: &mut Draw, now: &mut Configuration, bay: usize, nodes: usize) {
    let nodes = nodes.min(limits::MAX_NODES - now.nodes());
    let first = match draw.below(3) {
        0 => draw.below(nodes + 1),
        _ => nodes,
    };
    for nodes in [first, nodes - first] {
        if nodes > 0 && now.names() < limits::MAX_NAMES {
            let value = tree(&value(nodes));
            let kinds = [Component::Cell, Component::Thread];
            let kind = kinds[draw.below(kinds.len())];
            add(now, kind(value), bay);
        }
    }
}

/// So many names more of that bay, of one kind or of any; as many as an image can have.
fn fill_names(draw: &mut Draw, now: &mut Configuration, bay: usize, names: usize) {
    let wanted = (now.names() + names).min(limits::MAX_NAMES);
    let only = draw.one_in(2).then(|| draw.below(4));
    while now.names() < wanted {
        let has_node = now.nodes() < limits::MAX_NODES;
        match only.unwrap_or_else(|| draw.below(4)) {
            0 if has_node => add(now, Component::Thread(tree(&[Node::Unit])), bay),
            1 if has_node => add(now, Component::Cell(tree(&[Node::Num(5)])), bay),
            2 if now.names() + 1 < wanted => add_future(draw, now, bay),
            _ => add(now, Component::UsedHandle, bay),
        }
    }
}

/// One name or two of that bay, of any kind.
fn one_name_more(draw: &mut Draw, now: &mut Configuration, bay: usize) {
    let names = draw.pick(&[1, 2]);
    fill_names(draw, now, bay, names);
}

fn add(now: &mut Configuration, component: Component, bay: usize) {
    *now = std::mem::take(now).and(component, bay as u8);
}

/// A future and its open handle, either of them first.
fn add_future(draw: &mut Draw, now: &mut Configuration, bay: usize) {
    let first = now.names() as u8;
    if draw.one_in(2) {
        add(now, Component::Future, bay);
        add(now, Component::OpenHandle(first), bay);
    } else {
        add(now, Component::OpenHandle(first + 1), bay);
        add(now, Component::Future, bay);
    }
}
