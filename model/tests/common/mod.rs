//! Recipes and images that several tests use.
#![allow(dead_code)]

use model::answers::{Implementation, Model, Plain};
use model::command::on_deep_stack;
use model::config::{Component, Configuration};
use model::editions;
use model::expression::Expression;
use model::format::{bytes_of_hexadecimal, write_parts};
use model::image::write_image;
use model::limits;
use model::load::{load, Loaded};
use model::nodes::Node;
use model::step::{step, Outcome};
use model::types::Constant;
use model::verdict::verdict;
use std::rc::Rc;

/// Case A's table.
pub const A: &str = "000000 010000 020100";
/// "T5" of document 01.
pub const T5: &str = "000000 010000 020100 040101 040203";
/// "T7" of document 01.
pub const T7: &str = "000000 010000 020100 030100 040300 040104 040500";
/// Case A's table and a function from unit to unit.
pub const UNIT_FUNCTION: &str = "000000 010000 020100 040000";

/// The file of one bay.
pub fn recipe(table: &str, term: &str) -> Vec<u8> {
    recipe_of(table, &[term])
}

/// The file of several bays.
pub fn recipe_of(table: &str, terms: &[&str]) -> Vec<u8> {
    file_of(editions::FIRST.number, table, terms)
}

/// The file of one bay, of edition 2.
pub fn recipe_2(table: &str, term: &str) -> Vec<u8> {
    file_of(editions::SECOND.number, table, &[term])
}

/// The file of several bays, of edition 3: its table, its starting part and its terms.
pub fn recipe_3(table: &str, starting: &str, terms: &[&str]) -> Vec<u8> {
    let parts = [&[starting], terms].concat();
    file_of(editions::THIRD.number, table, &parts)
}

/// A file with that edition byte.
pub fn file_of(edition: u8, table: &str, terms: &[&str]) -> Vec<u8> {
    let mut parts = vec![bytes_of_hexadecimal(table)];
    parts.extend(terms.iter().map(|term| bytes_of_hexadecimal(term)));
    write_parts(edition, &parts)
}

/// The verdict's number, the model's and the plain twin's.
pub fn number(file: &[u8]) -> u32 {
    let number = verdict(file).number();
    assert_eq!(Plain.check(file).refusal, number, "the plain twin");
    number
}

/// A term of that nesting, at least 3: identities applied to unit, with entry 3 unit to unit.
pub fn nested(nesting: usize) -> String {
    "02 01 03 00 00".repeat(nesting - 2) + "03"
}

/// A recipe of that many nodes, over 16 bays; 16 more than a multiple of three, or 17.
pub fn with_nodes(nodes: usize) -> Vec<u8> {
    let mut left = nodes;
    let mut terms = Vec::new();
    for bay in 0..16 {
        let rest = 15 - bay;
        let mut term = String::new();
        let mut here = 1;
        while here + 3 <= 90 && here + 3 + rest <= left {
            term += "02 01 03 00 00";
            here += 3;
        }
        left -= here;
        terms.push(term + "03");
    }
    terms[15] = wider(&terms[15], left);
    let terms: Vec<&str> = terms.iter().map(String::as_str).collect();
    recipe_of(UNIT_FUNCTION, &terms)
}

/// One more node on a term of type unit: a lambda around it.
fn wider(term: &str, more: usize) -> String {
    assert!(more <= 1, "the nodes do not come out: {more} left");
    let around = ["", "01 03"][more];
    format!("{around} {term}")
}

/// A load and steps of these threads: the rules answered (0 for none), and the last image.
pub fn run(file: &[u8], threads: &[u64]) -> (Vec<u8>, Vec<u8>) {
    let mut out = vec![0; limits::MAX_IMAGE];
    let length = match load(file, &mut out) {
        Loaded::Accepted(_, length) => length,
        _ => panic!("refused"),
    };
    let mut image = out[..length].to_vec();
    let mut answers = Vec::new();
    for thread in threads {
        let outcome = step(&image, *thread, &mut out);
        if let Outcome::Rule(rule, length) = outcome {
            image = out[..length].to_vec();
            answers.push(rule);
        } else {
            answers.push(0);
        }
    }
    (answers, image)
}

/// Thread 0 of an image, stepped.
pub fn step_first(image: &[u8]) -> Outcome {
    step_thread(image, 0)
}

pub fn step_thread(image: &[u8], thread: u64) -> Outcome {
    stepped(image, thread, &mut vec![0; limits::MAX_IMAGE])
}

/// A step that the plain twin makes too: the same answer and the same bytes.
fn stepped(image: &[u8], thread: u64, out: &mut [u8]) -> Outcome {
    on_deep_stack(|| {
        let mut plain_out = out.to_vec();
        let plain = Plain.step(image, thread, &mut plain_out);
        let mut model_out = out.to_vec();
        assert_eq!(plain, Model.step(image, thread, &mut model_out));
        assert!(
            plain_out == model_out,
            "the plain twin writes another image"
        );
        step(image, thread, out)
    })
}

/// The image after a step of that thread, which a rule moves.
pub fn image_after(image: &[u8], thread: u64) -> (u8, Vec<u8>) {
    let mut out = vec![0; limits::MAX_IMAGE];
    match stepped(image, thread, &mut out) {
        Outcome::Rule(rule, length) => (rule, out[..length].to_vec()),
        other => panic!("{other:?}"),
    }
}

/// The image of these components, all of bay 0.
pub fn image_of(components: &[Component]) -> Vec<u8> {
    write_image(&Configuration::of_bay(0, components.to_vec()))
}

pub fn expression(nodes: &[Node]) -> Rc<Expression> {
    Rc::new(Expression::of_nodes(nodes))
}

pub fn thread(nodes: &[Node]) -> Component {
    Component::Thread(expression(nodes))
}

pub fn cell(nodes: &[Node]) -> Component {
    Component::Cell(expression(nodes))
}

pub fn used_handle() -> Component {
    Component::UsedHandle
}

pub fn unit() -> Vec<Node> {
    vec![Node::Unit]
}

pub fn constant(c: Constant) -> Vec<Node> {
    vec![Node::Constant(c, 0)]
}

pub fn application(function: Vec<Node>, argument: Vec<Node>) -> Vec<Node> {
    [vec![Node::Application], function, argument].concat()
}

/// An image of that many names: thread 0, and threads that hold unit.
pub fn with_names(first: Vec<Node>, names: usize) -> Vec<u8> {
    let mut components = vec![thread(&first)];
    components.resize(names, thread(&unit()));
    image_of(&components)
}

/// An image of that many nodes: thread 0, and a thread of nested lambdas.
pub fn with_image_nodes(first: Vec<Node>, nodes: usize) -> Vec<u8> {
    let more = nodes - first.len();
    let mut deep = vec![Node::Lambda(0); more - 1];
    deep.push(Node::Unit);
    on_deep_stack(|| image_of(&[thread(&first), thread(&deep)]))
}
