//! How many rows of each class are wanted: drawn things are taken until every class has its number.

use std::collections::{BTreeMap, BTreeSet};

/// The things drawn at most for one table; a class that is still not full then is a mistake.
const MOST_DRAWN: usize = 200_000;

/// Draws until each wanted class has so many different things of it, and puts them in the order of
/// their classes.
pub fn fill<C, T>(
    wanted: &BTreeMap<C, usize>,
    mut draw: impl FnMut() -> Option<T>,
    class: impl Fn(&T) -> C,
) -> Vec<T>
where
    C: Ord + std::fmt::Debug,
    T: Ord + Clone,
{
    let mut taken: BTreeMap<C, Vec<T>> = BTreeMap::new();
    let mut known = BTreeSet::new();
    let mut missing: usize = wanted.values().sum();
    for _ in 0..MOST_DRAWN {
        if missing == 0 {
            return taken.into_values().flatten().collect();
        }
        let thing = match draw() {
            Some(thing) => thing,
            None => continue,
        };
        let class = class(&thing);
        let most = wanted.get(&class).copied().unwrap_or(0);
        let of_class = taken.entry(class).or_default();
        if of_class.len() < most && known.insert(thing.clone()) {
            of_class.push(thing);
            missing -= 1;
        }
    }
    let short = wanted
        .iter()
        .filter(|(class, most)| taken.get(class).map_or(0, Vec::len) < **most);
    panic!("not drawn often enough: {:?}", short.collect::<Vec<_>>());
}
