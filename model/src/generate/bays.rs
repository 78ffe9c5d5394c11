//! Recipes of several bays that all make names, and pass nums to each other through their settings: a
//! bay's new name may come of what another bay made (document 02, T-08).

use crate::by_hand::*;
use crate::draw::Draw;
use crate::editions::{Edition, FIRST, SECOND, THIRD};
use crate::format::Recipe;
use crate::generate::starts;
use crate::limits::MAX_BAYS;
use crate::types::Constant;

/// Some bays, now and then many; accepted.
pub fn recipe(draw: &mut Draw) -> Recipe {
    let bays = match draw.below(6) {
        0 => draw.between(6, MAX_BAYS),
        _ => draw.between(2, 5),
    };
    let edition = draw.pick(&[FIRST, SECOND, THIRD]);
    let levels = draw.between(1, 4);
    of(draw, edition, bays, levels)
}

/// Two or three bays of few names.
pub fn small(draw: &mut Draw) -> Recipe {
    let bays = draw.between(2, 3);
    let levels = draw.between(1, 2);
    of(draw, FIRST, bays, levels)
}

fn of(draw: &mut Draw, edition: Edition, bays: usize, levels: usize) -> Recipe {
    let starts = starts::nums(draw, edition, bays);
    let mut maker = Maker {
        draw,
        types: Types::of(edition),
        bays,
    };
    let terms = (0..bays).map(|_| maker.num(levels)).collect();
    Recipe {
        starts,
        ..maker.types.recipe(terms)
    }
}

/// Makes terms of type num.
struct Maker<'a> {
    draw: &'a mut Draw,
    types: Types,
    bays: usize,
}

impl Maker<'_> {
    /// A term that passes a num on or makes names with it, so many levels of them.
    fn num(&mut self, levels: usize) -> Term {
        if levels == 0 {
            return num(self.draw.pick(&[0, 7, 250, u16::MAX]));
        }
        let inner = self.num(levels - 1);
        let made = match self.draw.below(4) {
            0 => self.held_by_a_cell(inner),
            1 => self.found_by_a_thread(inner),
            2 => self.bound_by_a_handle(inner),
            _ => inner,
        };
        match self.draw.below(3) {
            0 => made,
            _ => self.passed_on(made),
        }
    }

    /// exch setting e, some bay's: it holds the num from now on, and what it held comes instead.
    fn passed_on(&mut self, e: Term) -> Term {
        let setting = setting(self.draw.below(self.bays) as u8);
        self.exchanged(setting, e)
    }

    fn exchanged(&mut self, cell: Term, e: Term) -> Term {
        let then = self.types.many(NUM, NUM);
        let whole = self.types.many(SETTING, then);
        apply(apply(constant(Constant::Exch, whole), cell), e)
    }

    /// exch (cell e) 7
    fn held_by_a_cell(&mut self, e: Term) -> Term {
        let whole = self.types.many(NUM, SETTING);
        let cell = apply(constant(Constant::Cell, whole), e);
        self.exchanged(cell, num(7))
    }

    /// thread (λx:num. e)
    fn found_by_a_thread(&mut self, e: Term) -> Term {
        let function = self.types.many(NUM, NUM);
        let whole = self.types.many(function, NUM);
        apply(constant(Constant::Thread, whole), lambda(function, e))
    }

    /// handle (λx:num. λh. (λu:unit. x) (h e)), where h is usable once
    fn bound_by_a_handle(&mut self, e: Term) -> Term {
        let bind = self.types.once(NUM, UNIT);
        let with_bind = self.types.many(bind, NUM);
        let with_future = self.types.many(NUM, with_bind);
        let whole = self.types.many(with_future, NUM);
        let future = lambda(self.types.many(UNIT, NUM), variable(2));
        let body = apply(future, apply(variable(0), e));
        let function = lambda(with_future, lambda(with_bind, body));
        apply(constant(Constant::Handle, whole), function)
    }
}
