//! Rows of a step: images of runs, drawn ones, damaged ones and ones at the limits, with every answer,
//! cases of every subject, and steps that tell whose a name is.

use crate::across::{across, Across};
use crate::answers::{Implementation, Model, SteppedAnswer, DONE, REFUSED, RULE, WAITING};
use crate::causes;
use crate::config::{Component, Configuration};
use crate::draw::Draw;
use crate::expression::Expression;
use crate::format::Recipe;
use crate::generate::configurations::configuration_of;
use crate::generate::{bays, images, recipes};
use crate::image::{names_of_kind, read_image, write_image};
use crate::kinds;
use crate::limits;
use crate::nodes::Node;
use crate::rows::quota::fill;
use crate::rows::{antt, Written, FILLER};
use crate::rules;
use crate::subjects::{self, Subject};
use crate::tags;
use crate::types::{Constant, Shape};
use std::collections::BTreeMap;
use std::rc::Rc;

/// No longer image is taken, but for those at a limit.
const LONGEST: usize = 90;
/// The most turns of a run before the image is taken.
const TURNS: usize = 12;

/// Where an image comes from.
#[derive(Debug, Clone, Copy, PartialEq, Eq, PartialOrd, Ord)]
enum Origin {
    Run,
    /// a run in which a cell holds an open handle now
    Keeping,
    /// a run whose thread is at a case
    RunAtCase,
    /// a run of several bays, whose thread is of another bay than 0
    Elsewhere,
    Drawn,
    /// a drawn image whose thread meets what another bay owns
    Across(Across),
    /// a drawn image in which a name of this kind has an owner about the limit
    EdgeOwner(u8),
    /// a drawn image whose thread is at a case of this tag, with this subject
    AtCase(u8, Subject),
    Damaged,
    Copying,
    /// the same by rule 8 or 9
    CopyingCase,
    Crowded,
}

/// Where the image comes from, the image, the thread, and the length of the out buffer.
type Call = (Origin, Vec<u8>, u64, usize);
/// Origin, outcome, and the number of a rule or refusal.
type Class = (Origin, u32, u32);

/// A row: an image, a thread and the length of the out buffer; what step answers, and the new image.
pub struct StepRow {
    pub image: Vec<u8>,
    pub thread: u64,
    pub room: usize,
    pub answer: SteppedAnswer,
    pub new: Vec<u8>,
}

/// What a thread may meet that another bay owns, and the rule.
const ACROSS: [(Across, u8); 5] = [
    (Across::Binds, rules::HANDLE_BIND),
    (Across::Exchanges, rules::CELL_EXCH),
    (Across::Makes(Constant::Thread), rules::THREAD_NEW),
    (Across::Makes(Constant::Handle), rules::HANDLE_NEW),
    (Across::Makes(Constant::Cell), rules::CELL_NEW),
];

/// The kinds whose companion is an owner.
const OWNED_KINDS: [u8; 4] = [
    kinds::THREAD,
    kinds::CELL,
    kinds::USED_HANDLE,
    kinds::FUTURE,
];

fn wanted() -> BTreeMap<Class, usize> {
    let mut wanted = BTreeMap::new();
    for origin in [Origin::Run, Origin::Drawn] {
        for rule in rules::BETA..=rules::CELL_EXCH {
            wanted.insert((origin, RULE, u32::from(rule)), 5);
        }
        wanted.insert((origin, DONE, 0), 4);
        wanted.insert((origin, WAITING, 0), 5);
        wanted.insert((origin, REFUSED, causes::BUFFER), 4);
        wanted.insert((origin, REFUSED, causes::NO_THREAD), 5);
    }
    for rule in [rules::FUTURE_DEREF, rules::CASE_PAIR, rules::CASE_LIST] {
        wanted.insert((Origin::RunAtCase, RULE, u32::from(rule)), 5);
    }
    wanted.insert((Origin::RunAtCase, WAITING, 0), 4);
    for tag in [tags::CASE_PAIR, tags::CASE_LIST] {
        for subject in subjects::ALL {
            let (outcome, number) = answer_at(tag, subject);
            let count = if outcome == RULE { 4 } else { 2 };
            wanted.insert((Origin::AtCase(tag, subject), outcome, number), count);
        }
    }
    wanted.insert((Origin::CopyingCase, REFUSED, causes::ROOM), 5);
    for rule in [rules::BETA, rules::CELL_EXCH] {
        wanted.insert((Origin::Keeping, RULE, u32::from(rule)), 3);
    }
    for rule in [
        rules::THREAD_NEW,
        rules::HANDLE_NEW,
        rules::HANDLE_BIND,
        rules::CELL_NEW,
        rules::CELL_EXCH,
    ] {
        wanted.insert((Origin::Elsewhere, RULE, u32::from(rule)), 2);
    }
    for (what, rule) in ACROSS {
        wanted.insert((Origin::Across(what), RULE, u32::from(rule)), 2);
    }
    for kind in OWNED_KINDS {
        wanted.insert((Origin::EdgeOwner(kind), REFUSED, causes::IMAGE), 1);
        wanted.insert((Origin::EdgeOwner(kind), DONE, 0), 1);
    }
    wanted.insert((Origin::Damaged, REFUSED, causes::IMAGE), 14);
    wanted.insert((Origin::Copying, REFUSED, causes::ROOM), 8);
    wanted.insert((Origin::Crowded, REFUSED, causes::ROOM), 1);
    wanted.insert((Origin::Drawn, REFUSED, causes::USED_HANDLE), 8);
    wanted.insert((Origin::Drawn, REFUSED, causes::WRONG_KIND), 10);
    wanted
}

/// What a step answers at a case of that tag with that subject.
fn answer_at(tag: u8, subject: Subject) -> (u32, u32) {
    match (tag, subject) {
        (tags::CASE_PAIR, Subject::Pair) => (RULE, rules::CASE_PAIR.into()),
        (tags::CASE_LIST, Subject::Front) => (RULE, rules::CASE_LIST.into()),
        (_, Subject::DoneThread) => (RULE, rules::FUTURE_DEREF.into()),
        (_, Subject::UnfinishedThread | Subject::Future) => (WAITING, 0),
        _ => (REFUSED, causes::WRONG_KIND),
    }
}

/// The image after some turns of such a recipe.
fn of_a_run(draw: &mut Draw, recipe: fn(&mut Draw) -> Recipe) -> Option<(Origin, Vec<u8>)> {
    let file = recipe(draw).write();
    let mut out = vec![FILLER; limits::MAX_IMAGE];
    let loaded = Model.load(&file, &mut out)?;
    let mut image = out[..loaded.length as usize].to_vec();
    for _ in 0..draw.below(TURNS) {
        let thread = images::thread_number(draw, &image);
        let answer = Model.step(&image, thread, &mut out)?;
        if answer.outcome == RULE {
            image = out[..answer.length as usize].to_vec();
        }
    }
    let now = read_image(&image)?;
    let origin = if now.kept_handles().is_empty() {
        Origin::Run
    } else {
        Origin::Keeping
    };
    (loaded.refusal == 0).then_some((origin, image))
}

fn of_a_configuration(draw: &mut Draw) -> Vec<u8> {
    let names = draw.between(1, 5);
    let fuel = draw.pick(&[1, 2, 4]);
    write_image(&configuration_of(draw, names, fuel))
}

/// A drawn image with an owner about the limit, of a name of some kind.
fn with_edge_owner(draw: &mut Draw) -> Option<(Origin, Vec<u8>)> {
    let mut image = of_a_configuration(draw);
    let kind = draw.pick(&OWNED_KINDS);
    let names = names_of_kind(&image, kind);
    let name = (!names.is_empty()).then(|| draw.pick(&names) as usize)?;
    let head = limits::FIRST_HEAD + limits::HEAD_LENGTH * name;
    image[head + 1] = draw.pick(&images::EDGE_OWNERS);
    Some((Origin::EdgeOwner(kind), image))
}

fn some_bay(draw: &mut Draw) -> u8 {
    draw.below(limits::MAX_BAYS) as u8
}

/// (λx. x (x .. unit)) v: as small as it is, the outcome of rule 1 is just above the limit of nodes.
fn copying(draw: &mut Draw) -> Vec<u8> {
    let uses = draw.between(40, 90);
    let mut term = vec![Node::Application, Node::Lambda(draw.byte())];
    for _ in 0..uses {
        term.extend([Node::Application, Node::Variable(0)]);
    }
    term.push(Node::Constant(Constant::Exch, draw.byte()));
    let value = limits::MAX_NODES / uses;
    term.resize(term.len() + value - 1, Node::Lambda(draw.byte()));
    term.push(Node::Unit);
    let thread = Component::Thread(Rc::new(Expression::of_nodes(&term)));
    let components = vec![Component::UsedHandle, thread];
    write_image(&Configuration::of_bay(some_bay(draw), components))
}

/// case (v, w) of (x, y) ⇒ (x, (y, .. unit)): the same by rule 8 or 9.
fn copying_case(draw: &mut Draw) -> Vec<u8> {
    let uses = draw.between(40, 90);
    let number = draw.byte();
    let (shape, compound) = draw.pick(&[
        (Shape::Pair, Node::Pair(number)),
        (Shape::List, Node::Front(number)),
    ]);
    let both = 2 * limits::MAX_NODES / uses + 1;
    let first = draw.between(2, both - 2);
    let mut term = vec![Node::Case(shape), compound];
    for nodes in [first, both - first] {
        term.resize(term.len() + nodes - 1, Node::Lambda(draw.byte()));
        term.push(Node::Unit);
    }
    for place in 0..uses {
        term.extend([Node::Pair(draw.byte()), Node::Variable((place % 2) as u8)]);
    }
    term.push(Node::Unit);
    let thread = Component::Thread(Rc::new(Expression::of_nodes(&term)));
    let components = vec![Component::UsedHandle, thread];
    write_image(&Configuration::of_bay(some_bay(draw), components))
}

/// One name less than there may be, and a thread that asks for a handle and its future. Such an image
/// takes a prover seconds and memory: one of them is enough.
fn crowded(draw: &mut Draw) -> Vec<u8> {
    let names = limits::MAX_NAMES - 1;
    let term = [
        Node::Application,
        Node::Constant(Constant::Handle, draw.byte()),
        Node::Unit,
    ];
    let mut components = vec![Component::UsedHandle; names];
    let thread = Component::Thread(Rc::new(Expression::of_nodes(&term)));
    components[draw.below(names)] = thread;
    write_image(&Configuration::of_bay(some_bay(draw), components))
}

fn drawn(draw: &mut Draw) -> Option<Call> {
    let (origin, image) = match draw.below(50) {
        0 if draw.one_in(2) => (Origin::CopyingCase, copying_case(draw)),
        0 => (Origin::Copying, copying(draw)),
        1 => (Origin::Crowded, crowded(draw)),
        2..=15 => of_a_run(draw, recipes::small)?,
        16..=20 => of_a_run(draw, bays::small)?,
        21 => with_edge_owner(draw)?,
        22..=30 => {
            let mut image = of_a_configuration(draw);
            images::damage(&mut image, draw);
            (Origin::Damaged, image)
        }
        _ => (Origin::Drawn, of_a_configuration(draw)),
    };
    let thread = images::thread_number(draw, &image);
    let room = images::out_length(draw);
    let origin = told_apart(origin, &image, thread, room);
    let at_a_limit = matches!(
        origin,
        Origin::Copying | Origin::CopyingCase | Origin::Crowded
    );
    let fits = image.len() <= LONGEST || at_a_limit;
    fits.then_some((origin, image, thread, room))
}

/// The origin told apart by what the thread is at, if the buffer is long enough to tell.
fn told_apart(origin: Origin, image: &[u8], thread: u64, room: usize) -> Origin {
    match read_image(image) {
        Some(now) if room >= limits::MAX_IMAGE => {
            between_bays(at_case(origin, &now, thread), &now, thread)
        }
        _ => origin,
    }
}

/// At a case.
fn at_case(origin: Origin, now: &Configuration, thread: u64) -> Origin {
    let case = match subjects::case_at(now, thread) {
        Some(case) => case,
        None => return origin,
    };
    match origin {
        Origin::Run => Origin::RunAtCase,
        Origin::Drawn => {
            let tag = Node::Case(case.shape).tag();
            Origin::AtCase(tag, subjects::subject_of(now, &case))
        }
        _ => origin,
    }
}

/// At what another bay owns, or itself of another bay than 0.
fn between_bays(origin: Origin, now: &Configuration, thread: u64) -> Origin {
    let owner = usize::try_from(thread)
        .ok()
        .and_then(|thread| now.owners.get(thread));
    match (origin, across(now, thread)) {
        (Origin::Drawn, Some(what)) => Origin::Across(what),
        (Origin::Run, _) if owner.map_or(false, |owner| *owner > 0) => Origin::Elsewhere,
        _ => origin,
    }
}

fn row((_, image, thread, room): Call) -> StepRow {
    let mut out = vec![FILLER; room];
    let answer = Model.step(&image, thread, &mut out).unwrap_or_default();
    out.truncate(answer.length as usize);
    StepRow {
        image,
        thread,
        room,
        answer,
        new: out,
    }
}

fn class(call: &Call) -> Class {
    let answer = row(call.clone()).answer;
    let number = match answer.outcome {
        WAITING => 0,
        _ => answer.number,
    };
    (call.0, answer.outcome, number)
}

pub fn rows(draw: &mut Draw) -> Vec<StepRow> {
    let found = fill(&wanted(), || drawn(draw), class);
    found.into_iter().map(row).collect()
}

pub fn files(draw: &mut Draw) -> Vec<Written> {
    antt::STEPS.files(&rows(draw), antt::step_row)
}
