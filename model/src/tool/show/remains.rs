//! What is shown of a file whose parts cannot be told, and of a part that is no term.

use crate::format::{edition_of, hexadecimal, pairs};
use crate::nodes::Node;
use crate::tool::faults::{Part, Parts};
use crate::tool::outline::Outline;
use crate::tool::text::spelling::{constant_name, START};
use crate::types::Shape;
use std::fmt::Write;

/// How many bytes are shown of a file whose parts cannot be told.
const FIRST_BYTES: usize = 64;

/// The pairs, as far as there are any, and the first bytes.
pub fn first_bytes(file: &[u8], parts: &Parts) -> String {
    if !parts.entries.is_empty() || file.is_empty() {
        return String::new();
    }
    let mut text = pairs_text(file) + "# the first bytes:\n";
    for (line, bytes) in file.chunks(16).take(FIRST_BYTES / 16).enumerate() {
        let bytes: Vec<String> = bytes.iter().map(|b| hexadecimal(&[*b])).collect();
        let _ = writeln!(text, "# {:5}  {}", 16 * line, bytes.join(" "));
    }
    text
}

fn pairs_text(file: &[u8]) -> String {
    let opened = (file.len() >= 4).then(|| edition_of(file)).flatten();
    let edition = match opened {
        Some(edition) => edition,
        None => return String::new(),
    };
    let mut text = String::new();
    for (part, pair) in pairs(file).unwrap_or_default().iter().enumerate() {
        let (offset, length) = (pair.offset, pair.length);
        let part = Part::of(edition, part);
        let _ = writeln!(text, "# {part}: offset {offset}, length {length}");
    }
    text
}

/// The nodes of a part that is no term, as far as they could be read; before them what the bay starts
/// with, if it says so.
pub fn cut_text(bay: usize, start: Option<u16>, nodes: &[Node], part: &[u8]) -> String {
    let outline = Outline::of(nodes);
    let mut text = format!(
        "\n# bay {bay} is no term; {} of its nodes can be read\n",
        nodes.len()
    );
    if let Some(num) = start {
        let _ = writeln!(text, "#   {START} {num}");
    }
    for (at, node) in nodes.iter().enumerate().take(CUT_NODES) {
        let deep = (outline.above[at].nesting - 1).min(CUT_INDENT);
        let _ = writeln!(text, "#   {:deep$}{}", "", node_in_words(*node));
    }
    if nodes.len() > CUT_NODES {
        let _ = writeln!(text, "#   and {} more", nodes.len() - CUT_NODES);
    }
    let shown = &part[..part.len().min(FIRST_BYTES)];
    let more = if shown.len() < part.len() { ".." } else { "" };
    text + &format!("# its bytes: {}{more}\n", hexadecimal(shown))
}

/// The most nodes that are listed of a part that is no term.
const CUT_NODES: usize = 40;
/// The most columns by which they are indented.
const CUT_INDENT: usize = 40;

fn node_in_words(node: Node) -> String {
    match node {
        Node::Variable(index) => format!("variable {index}"),
        Node::Lambda(t) => format!("lambda, type {t}"),
        Node::Application => "application".to_owned(),
        Node::Unit => "unit".to_owned(),
        Node::Num(value) => format!("num {value}"),
        Node::Constant(c, t) => {
            format!("{}, type {t}", constant_name(c))
        }
        Node::Name(k) => format!("name {k}"),
        Node::Pair(t) => format!("pair, type {t}"),
        Node::Front(t) => format!("list front, type {t}"),
        Node::Case(Shape::Pair) => "case of a pair".to_owned(),
        Node::Case(Shape::List) => "case of a list".to_owned(),
    }
}
