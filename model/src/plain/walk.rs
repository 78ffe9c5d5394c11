//! Causes 9 and 10 of one term by recursion, at most 100 deep: causes 5 to 8 do not fit it.

use crate::limits;
use crate::plain::check::PlainTable;
use crate::plain::term::is_function;
use crate::table::{
    MANY, MANY_LIST, MANY_PAIR, NUM_ENTRY, ONCE_LIST, ONCE_PAIR, SETTING_ENTRY, UNIT_ENTRY,
};
use crate::tags;

/// A variable bound around the place of the walk.
#[derive(Clone, Copy)]
struct Around {
    of_type: u8,
    uses: u16,
    /// The many-lambdas down to its binder.
    many: u8,
}

/// A case binds two.
const MOST_VARIABLES: usize = 2 * limits::MAX_NESTING;

pub struct Walk<'a> {
    bytes: &'a [u8],
    table: PlainTable<'a>,
    at: usize,
    around: [Around; MOST_VARIABLES],
    variables: usize,
    /// The many-lambdas around the place.
    many: u8,
    /// Cause 10 fits.
    pub misused: bool,
}

impl<'a> Walk<'a> {
    pub fn new(bytes: &'a [u8], table: PlainTable<'a>) -> Walk<'a> {
        let none = Around {
            of_type: 0,
            uses: 0,
            many: 0,
        };
        Walk {
            bytes,
            table,
            at: 0,
            around: [none; MOST_VARIABLES],
            variables: 0,
            many: 0,
            misused: false,
        }
    }

    /// The type number of the term that begins here; `None` for cause 9.
    pub fn term(&mut self) -> Option<u8> {
        let tag = self.bytes[self.at];
        self.at += 1;
        match tag {
            tags::VARIABLE => Some(self.variable()),
            tags::LAMBDA => self.lambda(),
            tags::APPLICATION => self.application(),
            tags::UNIT => Some(UNIT_ENTRY),
            tags::NUM => {
                self.at += 2;
                Some(NUM_ENTRY)
            }
            tags::NAME => {
                self.at += 1;
                Some(SETTING_ENTRY)
            }
            tags::PAIR | tags::LIST => self.compound(),
            tags::CASE_PAIR => self.case([ONCE_PAIR, MANY_PAIR]),
            tags::CASE_LIST => self.case([ONCE_LIST, MANY_LIST]),
            _ => Some(self.operand()),
        }
    }

    fn operand(&mut self) -> u8 {
        let operand = self.bytes[self.at];
        self.at += 1;
        operand
    }

    fn variable(&mut self) -> u8 {
        let index = usize::from(self.operand());
        let binder = &mut self.around[self.variables - 1 - index];
        binder.uses += 1;
        self.misused |= self.table.is_once(binder.of_type) && self.many > binder.many;
        binder.of_type
    }

    fn bind(&mut self, of_type: u8) {
        self.around[self.variables] = Around {
            of_type,
            uses: 0,
            many: self.many,
        };
        self.variables += 1;
    }

    /// Out of the scope of the variable bound last.
    fn unbind(&mut self) {
        self.variables -= 1;
        let left = self.around[self.variables];
        self.misused |= self.table.is_once(left.of_type) && left.uses != 1;
    }

    fn lambda(&mut self) -> Option<u8> {
        let whole = self.operand();
        let (kind, parameter, result) = self.table.entry(whole);
        let many = u8::from(kind == MANY);
        self.many += many;
        self.bind(parameter);
        let body = self.term()?;
        self.unbind();
        self.many -= many;
        (body == result).then_some(whole)
    }

    fn application(&mut self) -> Option<u8> {
        let function = self.term()?;
        let argument = self.term()?;
        let (kind, parameter, result) = self.table.entry(function);
        (is_function(kind) && parameter == argument).then_some(result)
    }

    /// The types of the two components of a pair, or of a front and the rest.
    fn components(&self, whole: u8) -> (u8, u8) {
        let (kind, p, q) = self.table.entry(whole);
        match kind {
            ONCE_LIST | MANY_LIST => (p, whole),
            _ => (p, q),
        }
    }

    fn compound(&mut self) -> Option<u8> {
        let whole = self.operand();
        let first = self.term()?;
        let second = self.term()?;
        (self.components(whole) == (first, second)).then_some(whole)
    }

    fn case(&mut self, kinds: [u8; 2]) -> Option<u8> {
        let subject = self.term()?;
        if !kinds.contains(&self.table.entry(subject).0) {
            return None;
        }
        let (first, second) = self.components(subject);
        self.bind(first);
        self.bind(second);
        let body = self.term()?;
        self.unbind();
        self.unbind();
        Some(body)
    }
}
