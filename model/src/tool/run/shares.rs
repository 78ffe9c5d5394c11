//! What a run in the separate profile says of the bays' shares.

use crate::config::Configuration;
use crate::image::read_image;
use crate::profile::{bays, owned, share, Amount};
use crate::reduce::{move_of, Move};
use crate::tool::run::image_view::ImageView;
use crate::tool::run::report::vent_in_words;
use std::fmt::Write;

/// Which bays the thread's rule would leave above their share: "a rule applies, outcome leaves bay 1 with
/// 3,000 nodes, above its share of 2,048". `None` if it has no rule, or leaves none so.
pub fn lack_of_room(view: ImageView, thread: u64) -> Option<String> {
    let now = read_image(view.0)?;
    let outcome = match move_of(&now, usize::try_from(thread).ok()?) {
        Move::Rule(_, next) => next,
        _ => return None,
    };
    let above: Vec<String> = above(&outcome, bays(&now));
    let told = format!("a rule applies, outcome leaves {}", above.join(" and "));
    (!above.is_empty()).then_some(told)
}

/// Each bay above its share of so many, and by what.
fn above(outcome: &Configuration, bays: usize) -> Vec<String> {
    let may = share(bays);
    let told = |bay: usize| {
        let has = owned(outcome, bay);
        let mut what = Vec::new();
        if has.names > may.names {
            what.push(told_above(bay, has.names, "names", may.names));
        }
        if has.nodes > may.nodes {
            what.push(told_above(bay, has.nodes, "nodes", may.nodes));
        }
        what
    };
    (0..bays).flat_map(told).collect()
}

fn told_above(bay: usize, has: usize, what: &str, may: usize) -> String {
    let [has, may] = [has, may].map(grouped);
    format!("bay {bay} with {has} {what}, above its share of {may}")
}

/// 3000 as 3,000: no number here has more than seven digits.
fn grouped(number: usize) -> String {
    match number {
        0..=999 => number.to_string(),
        _ => format!("{},{:03}", number / 1_000, number % 1_000),
    }
}

/// The share, then for each bay what it owns, and its vent.
pub fn shares_and_vents(view: ImageView, bays: usize) -> String {
    let may = share(bays);
    let [names, nodes] = [may.names, may.nodes].map(grouped);
    let mut text = format!("Each bay's share is {names} names and {nodes} nodes.\n");
    let owns = match read_image(view.0) {
        Some(now) => (0..bays).map(|bay| owned(&now, bay)).collect(),
        None => Vec::new(),
    };
    let _ = writeln!(text, "bay  names  nodes  vent");
    for ((bay, vent), Amount { names, nodes }) in view.vents(bays).into_iter().enumerate().zip(owns)
    {
        let vent = vent_in_words(vent, view);
        let _ = writeln!(text, "{bay:>3}  {names:>5}  {nodes:>5}  {vent}");
    }
    text
}
