//! A long term over several lines.

use crate::limits;
use crate::nodes::Node;
use crate::tool::text::printer::{Printer, Standing};

/// The longest line, where a term can be broken.
const WIDTH: usize = 100;
/// How far a part stands to the right of its whole.
const INDENT: usize = 2;
/// The most that stands before an argument in the same line.
const BEFORE: usize = 40;

/// The term, its first line after `indent` spaces that stand already, the others after their own.
pub fn laid_out(printer: &Printer, indent: usize) -> String {
    let deepest = printer
        .outline
        .above
        .iter()
        .map(|above| above.nesting)
        .max();
    if deepest > Some(limits::MAX_NESTING) {
        return printer.line(0, Standing::Alone);
    }
    let mut layout = Layout {
        printer,
        out: String::new(),
    };
    layout.term(0, Standing::Alone, indent, indent);
    layout.out
}

struct Layout<'a> {
    printer: &'a Printer<'a>,
    out: String,
}

impl Layout<'_> {
    /// The term from that column on; lines that follow stand to the right of `indent`.
    fn term(&mut self, at: usize, standing: Standing, indent: usize, column: usize) {
        let line = self.printer.line(at, standing);
        if column + width(&line) <= WIDTH {
            self.out.push_str(&line);
            return;
        }
        let brackets = self.printer.has_brackets(at, standing);
        let begins_line = indent == column;
        let indent = indent + usize::from(brackets && begins_line);
        let column = column + usize::from(brackets);
        if brackets {
            self.out.push('(');
        }
        match self.printer.nodes[at] {
            Node::Lambda(_) => self.lambdas(at, indent, column),
            Node::Application => self.application(at, indent, column),
            Node::Pair(_) | Node::Front(_) => self.compound(at, indent, column),
            Node::Case(_) => self.case(at, indent, column),
            _ => self.out.push_str(&line),
        }
        if brackets {
            self.out.push(')');
        }
    }

    fn new_line(&mut self, indent: usize) {
        self.out.push('\n');
        self.out.extend(std::iter::repeat(' ').take(indent));
    }

    /// The lambdas that follow each other in one line, then the body.
    fn lambdas(&mut self, at: usize, indent: usize, column: usize) {
        let mut here = at;
        let mut column = column;
        loop {
            let head = self.printer.head(here);
            column += width(&head) + 1;
            self.out.push_str(&head);
            here += 1;
            let more = matches!(self.printer.nodes[here], Node::Lambda(_));
            if !more || column > WIDTH - BEFORE {
                break;
            }
            self.out.push(' ');
        }
        let inner = indent + INDENT;
        self.new_line(inner);
        self.term(here, Standing::Alone, inner, inner);
    }

    /// The last argument in the line of what stands before it, if that is short; else in its own.
    fn application(&mut self, at: usize, indent: usize, column: usize) {
        let before = self.printer.line(at + 1, Standing::Function);
        let argument = self.printer.second(at);
        if width(&before) <= BEFORE {
            self.out.push_str(&before);
            self.out.push(' ');
            let column = column + width(&before) + 1;
            self.term(argument, Standing::Argument, indent, column);
            return;
        }
        self.term(at + 1, Standing::Function, indent, column);
        let inner = indent + INDENT;
        self.new_line(inner);
        self.term(argument, Standing::Argument, inner, inner);
    }

    /// Each component in its own line.
    fn compound(&mut self, at: usize, indent: usize, column: usize) {
        self.out.push('(');
        let inner = indent + usize::from(indent == column);
        self.term(at + 1, Standing::Alone, inner, column + 1);
        self.out.push_str(self.printer.between(at));
        self.new_line(inner);
        self.term(self.printer.second(at), Standing::Alone, inner, inner);
        self.out.push_str(&self.printer.end(at));
    }

    /// The subject and the two variables, then the body.
    fn case(&mut self, at: usize, indent: usize, column: usize) {
        let word = "case ";
        self.out.push_str(word);
        let inner = indent + INDENT;
        self.term(at + 1, Standing::Subject, inner, column + width(word));
        self.out.push_str(&self.printer.pattern(at));
        self.new_line(inner);
        self.term(self.printer.second(at), Standing::Alone, inner, inner);
    }
}

fn width(text: &str) -> usize {
    text.chars().count()
}
