//! Document 01, "Loading": the starting image of an accepted recipe, and what the separate profile of
//! document 02, T-09, refuses besides.

use crate::causes;
use crate::config::{Component, Configuration};
use crate::expression::Expression;
use crate::image::write_image;
use crate::limits;
use crate::nodes::Node;
use crate::profile::Profile;
use crate::verdict::{read_recipe, verdict, Verdict};
use std::rc::Rc;

/// The answer of a load: each bay's type number and the image's length, or the refusal.
#[derive(Debug, Clone, PartialEq, Eq)]
pub enum Loaded {
    Accepted(Vec<u8>, usize),
    Refused(u32),
}

/// "names 0 to b − 1 to the settings and b to 2b − 1 to the bays' threads"; a setting holds its bay's
/// starting num. "Settings and first threads belong to their bay".
pub fn starting_configuration(starts: &[u16], terms: &[Vec<Node>]) -> Configuration {
    let setting = |num: &u16| Component::Cell(Rc::new(Expression::Num(*num)));
    let thread = |term: &Vec<Node>| Component::Thread(Rc::new(Expression::of_nodes(term)));
    let settings = starts.iter().map(setting);
    let threads = terms.iter().map(thread);
    let bays = |count: usize| (0..=u8::MAX).take(count);
    Configuration {
        components: settings.chain(threads).collect(),
        owners: bays(starts.len()).chain(bays(terms.len())).collect(),
    }
}

/// The terms of an accepted file, and what it starts with.
fn start(file: &[u8]) -> Option<(Vec<Vec<Node>>, Configuration)> {
    let recipe = read_recipe(file).ok()?;
    let starting = starting_configuration(&recipe.starts?, &recipe.terms);
    Some((recipe.terms, starting))
}

/// The starting image of an accepted file.
pub fn starting_image(file: &[u8]) -> Option<Vec<u8>> {
    start(file).map(|(_, starting)| write_image(&starting))
}

/// Loading in the common profile.
pub fn load(file: &[u8], out: &mut [u8]) -> Loaded {
    load_in(Profile::Common, file, out)
}

/// Loading: 12 first, then the verdict, then what the profile refuses, then the image.
pub fn load_in(profile: Profile, file: &[u8], out: &mut [u8]) -> Loaded {
    if out.len() < limits::MAX_IMAGE {
        return Loaded::Refused(causes::BUFFER);
    }
    let types = match verdict(file) {
        Verdict::Refused(number) => return Loaded::Refused(number),
        Verdict::Accepted(types) => types,
    };
    let (terms, starting) = start(file).expect("an accepted recipe has a start");
    if let Some(number) = profile.refusal(&terms, &starting) {
        return Loaded::Refused(number);
    }
    let image = write_image(&starting);
    out[..image.len()].copy_from_slice(&image);
    Loaded::Accepted(types, image.len())
}
