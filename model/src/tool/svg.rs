//! A run as a picture: the vents over the turns, and below it what each thread did.

pub mod scale;
pub mod sheet;
pub mod timeline;
pub mod vents;

use crate::tool::run::history::History;
use scale::Scale;
use sheet::{Anchor, Sheet};

/// The space to the left of both drawings, for their labels.
const LEFT: f64 = 120.0;
/// The width of both drawings.
const WIDTH: f64 = 760.0;
/// The space to the right, for the key of the bays and the ends of the threads.
const RIGHT: f64 = 270.0;
const TOP: f64 = 50.0;
const GAP: f64 = 80.0;
/// The space below, for the axis and the keys of the threads.
const BOTTOM: f64 = 130.0;

/// The picture of a run, as SVG.
pub fn picture(title: &str, history: &History) -> String {
    let timeline_top = TOP + vents::HEIGHT + GAP;
    let timeline_height = timeline::height(history);
    let height = timeline_top + timeline_height + BOTTOM;
    let mut sheet = Sheet::new(LEFT + WIDTH + RIGHT, height);
    let scale = Scale::new(LEFT, WIDTH, history.turns + 1);
    let heading = format!("{}, {} turns", shortened(title), history.turns);
    sheet.text((LEFT, 28.0), Anchor::Start, 16, &heading);
    vents::draw(&mut sheet, TOP, &scale, history);
    timeline::draw(&mut sheet, timeline_top, &scale, history);
    sheet.finish()
}

/// The end of a long name says more than its beginning.
fn shortened(title: &str) -> String {
    const MOST: usize = 80;
    let count = title.chars().count();
    if count <= MOST {
        return title.to_owned();
    }
    let last: String = title.chars().skip(count - MOST).collect();
    format!("…{last}")
}
