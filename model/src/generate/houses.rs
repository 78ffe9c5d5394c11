//! Houses that come to lack room, some of whose bays go on; and how many turns to ask for.

use crate::draw::Draw;
use crate::editions::{FIRST, SECOND, THIRD};
use crate::format::Recipe;
use crate::generate::starts;
use crate::houses::{self, Bay, Makes};

/// An identity doubled so often has more than 4,096 nodes.
const TOO_OFTEN: usize = 10;

/// A house of a few bays, mostly accepted.
pub fn house(draw: &mut Draw) -> Recipe {
    let count = match draw.below(8) {
        0 => draw.between(6, 16),
        _ => draw.between(1, 5),
    };
    let edition = draw.pick(&[FIRST, SECOND, THIRD]);
    let makes = match draw.below(8) {
        0 => Some(draw.pick(&[Makes::Cells, Makes::Threads, Makes::Handles])),
        1 => Some(Makes::Nothing),
        _ => None,
    };
    let bays = match draw.below(8) {
        0 => with_room_later(draw),
        _ => (0..count).map(|_| bay(draw, makes)).collect(),
    };
    let starts = starts::nums(draw, edition, bays.len());
    Recipe {
        starts,
        ..houses::house(edition, &bays)
    }
}

/// A bay that holds much for a while, one that lacks room meanwhile, and a small one.
fn with_room_later(draw: &mut Draw) -> Vec<Bay> {
    let holds = Bay::Holds(8, draw.between(20, 30));
    let small = draw.pick(&[Bay::Done, Bay::Steps(3), Bay::Waits]);
    vec![holds, Bay::Doubles(9), small]
}

/// A bay; it loops for ever only where something to make is told.
fn bay(draw: &mut Draw, makes: Option<Makes>) -> Bay {
    match (draw.below(12), makes) {
        (0, _) => Bay::Done,
        (1, _) => Bay::Waits,
        (2 | 3, _) => Bay::Steps(draw.between(1, 30)),
        (4 | 5, Some(makes)) => Bay::Loops(makes),
        (4..=6, _) => Bay::Doubles(draw.between(1, TOO_OFTEN + 1)),
        (7 | 8, _) => Bay::Pairs(draw.between(1, TOO_OFTEN + 1)),
        _ => Bay::Holds(draw.between(6, TOO_OFTEN), draw.between(0, 30)),
    }
}

/// Mostly few turns, now and then none or one, seldom more than it takes to fill a house.
pub fn turns(draw: &mut Draw) -> u16 {
    let turns = match draw.below(50) {
        0..=4 => 0,
        5..=8 => 1,
        9..=28 => draw.between(2, 40),
        29..=48 => draw.between(41, 400),
        _ => draw.between(401, 2_000),
    };
    turns as u16
}

/// The same, or as many as can be asked for.
pub fn any_turns(draw: &mut Draw) -> u16 {
    match draw.below(400) {
        0 => u16::MAX,
        _ => turns(draw),
    }
}
