//! Turns along the width of a drawing.

use crate::tool::svg::sheet::{Anchor, Sheet};

/// The most marks of the axis beside the load's.
const MARKS: u64 = 12;

pub struct Scale {
    pub left: f64,
    pub width: f64,
    /// The first turn past the drawing.
    pub end: u64,
}

impl Scale {
    pub fn new(left: f64, width: f64, end: u64) -> Scale {
        Scale { left, width, end }
    }

    /// Where a turn begins.
    pub fn x(&self, turn: u64) -> f64 {
        self.left + self.width * turn as f64 / self.end as f64
    }

    /// The width of one turn.
    pub fn turn_width(&self) -> f64 {
        self.width / self.end as f64
    }

    /// The axis below a drawing, with the number of a turn at its marks.
    pub fn axis(&self, sheet: &mut Sheet, y: f64) {
        let right = self.left + self.width;
        sheet.line((self.left, y), (right, y), "stroke=\"#222\"");
        let every = every(self.end, MARKS);
        let mut turn = 0;
        while turn < self.end {
            let x = self.x(turn) + self.turn_width() / 2.0;
            sheet.line((x, y), (x, y + 5.0), "stroke=\"#222\"");
            sheet.text((x, y + 18.0), Anchor::Middle, 12, &turn.to_string());
            turn += every;
        }
        let middle = self.left + self.width / 2.0;
        sheet.text(
            (middle, y + 36.0),
            Anchor::Middle,
            12,
            "turn (0 is the load)",
        );
    }
}

/// 1, 2, 5, 10, 20, ..: the first that gives at most so many marks up to the end, beside the one at 0.
pub fn every(end: u64, marks: u64) -> u64 {
    let mut power = 1;
    loop {
        let few = |factor: &u64| end / (factor * power) <= marks;
        if let Some(factor) = [1, 2, 5].into_iter().find(few) {
            return factor * power;
        }
        power *= 10;
    }
}
