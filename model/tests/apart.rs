//! Document 02, T-09, the claim: a bay of the separate profile goes the same way whatever its neighbours
//! are and do. Tried on drawn pairs of recipes that have one bay in common, and on drawn orders of steps.

use model::answers::{Implementation, Model, Plain, SteppedAnswer, DONE, REFUSED, RULE, WAITING};
use model::causes;
use model::command::on_deep_stack;
use model::config::Component;
use model::draw::Draw;
use model::editions::{Edition, ALL, FIRST, SECOND, THIRD};
use model::format::{hexadecimal, Recipe};
use model::generate::separate::{self, name_own};
use model::generate::starts;
use model::generate::tables::GrowingTable;
use model::houses::{house, Bay, Makes};
use model::image::{names_of_kind, owners, read_image};
use model::kinds;
use model::limits::{MAX_BAYS, MAX_ENTRIES, MAX_IMAGE};
use model::nodes::Node;
use model::profile::Profile;
use model::table::{Entry, CELL, MANY, MANY_LIST, MANY_PAIR, ONCE, ONCE_LIST, ONCE_PAIR};
use model::types::Multiplicity::{Many, Once};
use std::collections::BTreeMap;

/// Two recipes with the same number of bays, and one bay in common.
struct Twins {
    recipes: [Recipe; 2],
    bay: usize,
    /// The first recipe's number of each type that the bay has in the second.
    numbers: BTreeMap<u8, u8>,
}

/// Puts terms of another table into a new one: "type numbers read as types".
struct Translation<'a> {
    entries: &'a [Entry],
    known: BTreeMap<u8, u8>,
}

impl<'a> Translation<'a> {
    fn of(recipe: &'a Recipe) -> Translation<'a> {
        Translation {
            entries: &recipe.entries,
            known: BTreeMap::new(),
        }
    }

    /// The new number of a type; `None` where the table is full, or its edition does not have the type.
    fn number(&mut self, table: &mut GrowingTable, old: u8) -> Option<u8> {
        if let Some(new) = self.known.get(&old) {
            return Some(*new);
        }
        let Entry { kind, p, q } = self.entries[usize::from(old)];
        let new = match kind {
            CELL => {
                let p = self.number(table, p)?;
                table.cell(p)?
            }
            ONCE | MANY | ONCE_PAIR | MANY_PAIR => {
                let (p, q) = (self.number(table, p)?, self.number(table, q)?);
                match kind {
                    ONCE => table.function(Once, p, q)?,
                    MANY => table.function(Many, p, q)?,
                    ONCE_PAIR => table.pair(Once, p, q)?,
                    _ => table.pair(Many, p, q)?,
                }
            }
            ONCE_LIST | MANY_LIST => {
                let p = self.number(table, p)?;
                let multiplicity = if kind == MANY_LIST { Many } else { Once };
                table.list(multiplicity, p)?
            }
            // unit and num stand first in every table
            _ => old,
        };
        self.known.insert(old, new);
        Some(new)
    }

    fn term(&mut self, table: &mut GrowingTable, term: &[Node]) -> Option<Vec<Node>> {
        let edition = table.edition();
        let mut new = term.to_vec();
        for node in &mut new {
            if !edition.has_node(*node) {
                return None;
            }
            if let Some(number) = node.type_number_mut() {
                *number = self.number(table, *number)?;
            }
        }
        Some(new)
    }
}

/// A recipe, and another of as many bays with the same term and the same starting num in one bay. The
/// types of that term stand elsewhere in the other's table, whose edition may be another one, and the
/// neighbours are others.
fn twins(draw: &mut Draw) -> Option<Twins> {
    let first = some_recipe(draw);
    let neighbours = some_recipe(draw);
    let bays = first.terms.len();
    let bay = draw.below(bays);
    let start = first.starts.get(bay).copied().unwrap_or(0);
    let edition = draw.pick(&ALL);
    if start != 0 && !edition.starting {
        return None;
    }
    let mut table = GrowingTable::new(edition, MAX_ENTRIES);
    let more = draw.pick(&[0, 2, 10, 60]);
    table.fill(draw, 3 + more);
    let mut translation = Translation::of(&first);
    let mut from_neighbours = Translation::of(&neighbours);
    let mut terms = vec![vec![Node::Unit]; bays];
    for at in order(draw, bays) {
        let given = neighbours.terms.len();
        terms[at] = match at == bay {
            true => translation.term(&mut table, &first.terms[bay])?,
            false => from_neighbours
                .term(&mut table, &neighbours.terms[at % given])
                .unwrap_or_else(|| vec![Node::Unit]),
        };
    }
    let mut starts = starts::nums(draw, edition, bays);
    if let Some(own) = starts.get_mut(bay) {
        *own = start;
    }
    let mut second = Recipe {
        edition: edition.number,
        entries: table.into_entries(),
        starts,
        terms,
    };
    name_own(&mut second);
    let known = translation.known.iter();
    Some(Twins {
        recipes: [first, second],
        bay,
        numbers: known.map(|(old, new)| (*new, *old)).collect(),
    })
}

/// Some recipe of this profile; now and then a house whose bays fill their share.
fn some_recipe(draw: &mut Draw) -> Recipe {
    if draw.below(3) > 0 {
        return separate::recipe(draw);
    }
    let fills = [
        Bay::Loops(Makes::Cells),
        Bay::Loops(Makes::Threads),
        Bay::Loops(Makes::Handles),
        Bay::Doubles(6),
        Bay::Pairs(6),
        Bay::Holds(5, 9),
        Bay::Waits,
        Bay::Done,
    ];
    let bays: Vec<Bay> = (0..draw.between(1, MAX_BAYS))
        .map(|_| draw.pick(&fills))
        .collect();
    let edition = draw.pick(&[FIRST, SECOND, THIRD]);
    house(edition, &bays)
}

/// The bays in some order.
fn order(draw: &mut Draw, bays: usize) -> Vec<usize> {
    let mut all: Vec<usize> = (0..bays).collect();
    for last in (1..bays).rev() {
        all.swap(last, draw.below(last + 1));
    }
    all
}

/// What a turn of a bay answers; a name by its place among the bay's.
#[derive(Debug, Clone, PartialEq, Eq, PartialOrd, Ord)]
enum Seen {
    Rule(u32),
    Done,
    Waiting(usize),
    Room,
    Refused(u32),
}

/// A run, watched from one of its bays.
struct Watched<'a> {
    implementation: &'a dyn Implementation,
    profile: Profile,
    bay: usize,
    /// The numbers of types that what the bay owns is told in, where they are others.
    numbers: BTreeMap<u8, u8>,
    image: Vec<u8>,
    out: Vec<u8>,
}

impl<'a> Watched<'a> {
    /// The load; `None` where it is refused.
    fn start(
        implementation: &'a dyn Implementation,
        profile: Profile,
        (file, bay): (&[u8], usize),
        numbers: BTreeMap<u8, u8>,
    ) -> Option<Watched<'a>> {
        let mut out = vec![0; MAX_IMAGE];
        let loaded = implementation.load_in(profile, file, &mut out)?;
        (loaded.refusal == 0).then(|| Watched {
            implementation,
            profile,
            bay,
            numbers,
            image: out[..loaded.length as usize].to_vec(),
            out,
        })
    }

    /// A step, "each step with a buffer long enough and the image last written".
    fn step(&mut self, thread: u64) -> SteppedAnswer {
        let image = &self.image;
        let answer = self
            .implementation
            .step_in(self.profile, image, thread, &mut self.out);
        let answer = answer.expect("a stepper");
        if answer.outcome == RULE {
            self.image = self.out[..answer.length as usize].to_vec();
        }
        answer
    }

    /// Some steps of others: threads of other bays, and numbers of no thread.
    fn others(&mut self, draw: &mut Draw) {
        for _ in 0..draw.pick(&[0, 0, 1, 2, 6, 20]) {
            let others = self.threads(|owner| owner != self.bay);
            match others.len() {
                0 => self.step(u64::MAX),
                _ => self.step(draw.pick(&others)),
            };
        }
    }

    /// The threads of some bays.
    fn threads(&self, wanted: impl Fn(usize) -> bool) -> Vec<u64> {
        let owners = owners(&self.image);
        let threads = names_of_kind(&self.image, kinds::THREAD);
        let owner = |name: &u64| usize::from(owners[*name as usize]);
        threads
            .into_iter()
            .filter(|name| wanted(owner(name)))
            .collect()
    }

    fn own_threads(&self) -> Vec<u64> {
        self.threads(|owner| owner == self.bay)
    }

    /// All names of the bay.
    fn own_names(&self) -> Vec<usize> {
        let owners = owners(&self.image);
        let is_own = |name: &usize| usize::from(owners[*name]) == self.bay;
        (0..owners.len()).filter(is_own).collect()
    }

    /// A turn of the bay's thread of that place among its threads.
    fn turn(&mut self, place: usize) -> Seen {
        let thread = self.own_threads()[place];
        let own = self.own_names();
        let answer = self.step(thread);
        let number = answer.number;
        match answer.outcome {
            RULE => Seen::Rule(number),
            DONE => Seen::Done,
            WAITING => Seen::Waiting(place_of(&own, number as usize)),
            REFUSED if number == causes::ROOM => Seen::Room,
            _ => Seen::Refused(number),
        }
    }

    /// What the bay owns, the setting first: names by their places, types by the first recipe's numbers.
    fn owned(&self) -> Vec<(u8, Vec<Node>)> {
        let now = read_image(&self.image).expect("an image of a run");
        let own = self.own_names();
        own.iter()
            .map(|name| match &now.components[*name] {
                Component::Thread(e) => (kinds::THREAD, self.told(&own, &e.nodes())),
                Component::Cell(e) => (kinds::CELL, self.told(&own, &e.nodes())),
                Component::OpenHandle(y) => {
                    (kinds::OPEN_HANDLE, self.told(&own, &[Node::Name(*y)]))
                }
                Component::UsedHandle => (kinds::USED_HANDLE, Vec::new()),
                Component::Future => (kinds::FUTURE, Vec::new()),
            })
            .collect()
    }

    fn told(&self, own: &[usize], nodes: &[Node]) -> Vec<Node> {
        let mut told = nodes.to_vec();
        for node in &mut told {
            if let Node::Name(y) = node {
                *y = place_of(own, usize::from(*y)) as u8;
            }
            if let Some(number) = node.type_number_mut() {
                *number = self.numbers.get(number).copied().unwrap_or(*number);
            }
        }
        told
    }
}

/// The place of a name among a bay's; one past the last for another bay's.
fn place_of(own: &[usize], name: usize) -> usize {
    own.iter().position(|y| *y == name).unwrap_or(own.len())
}

/// How two runs come apart.
#[derive(Debug, PartialEq, Eq)]
enum Apart {
    Threads,
    Answers(Seen, Seen),
    Setting,
    /// Something else that the bay owns, of which the claim does not speak.
    Others,
}

/// After how many turns that answer done a pair is left.
const IDLE: usize = 6;

/// Two runs that give the bay the same turns, so many; the answers that came, or the turn at which the
/// runs come apart.
fn go(
    draw: &mut Draw,
    [mut first, mut second]: [Watched; 2],
    turns: usize,
) -> Result<Vec<Seen>, (usize, Apart)> {
    let mut came = Vec::new();
    let mut place = 0;
    for turn in 0..turns {
        if came.len() > IDLE
            && came[came.len() - IDLE..]
                .iter()
                .all(|seen| *seen == Seen::Done)
        {
            break;
        }
        first.others(draw);
        second.others(draw);
        let own = first.own_threads().len();
        if own != second.own_threads().len() {
            return Err((turn, Apart::Threads));
        }
        if came
            .last()
            .map_or(true, |seen| !matches!(seen, Seen::Rule(_)))
            || draw.one_in(3)
        {
            place = draw.below(own);
        }
        let (one, other) = (first.turn(place), second.turn(place));
        if one != other {
            return Err((turn, Apart::Answers(one, other)));
        }
        let (ours, theirs) = (first.owned(), second.owned());
        if ours[0] != theirs[0] {
            return Err((turn, Apart::Setting));
        }
        if ours != theirs {
            return Err((turn, Apart::Others));
        }
        came.push(one);
    }
    Ok(came)
}

/// The runs of two recipes in a profile; `None` where one is refused.
fn watched<'a>(
    implementation: &'a dyn Implementation,
    profile: Profile,
    twins: &Twins,
) -> Option<[Watched<'a>; 2]> {
    let files = [0, 1].map(|which: usize| twins.recipes[which].write());
    let start = |which: usize, numbers| {
        Watched::start(implementation, profile, (&files[which], twins.bay), numbers)
    };
    Some([start(0, BTreeMap::new())?, start(1, twins.numbers.clone())?])
}

/// What came of so many pairs.
#[derive(Debug, Default)]
struct Tally {
    pairs: usize,
    editions: BTreeMap<(u8, u8), usize>,
    seen: BTreeMap<Seen, usize>,
    apart: Vec<Apart>,
}

fn tried(
    implementation: &dyn Implementation,
    profile: Profile,
    (seed, pairs): (u64, usize),
) -> Tally {
    let mut draw = Draw::new(seed);
    let mut tally = Tally::default();
    while tally.pairs < pairs {
        let twins = match twins(&mut draw) {
            Some(twins) => twins,
            None => continue,
        };
        // what the separate loader accepts, in either profile
        let runs = watched(implementation, Profile::Separate, &twins);
        let runs = runs.and_then(|_| watched(implementation, profile, &twins));
        let runs = match runs {
            Some(runs) => runs,
            None => continue,
        };
        tally.pairs += 1;
        let editions = [0, 1].map(|which: usize| twins.recipes[which].edition);
        *tally
            .editions
            .entry((editions[0], editions[1]))
            .or_default() += 1;
        let turns = draw.pick(&[20, 60, 120]);
        match go(&mut draw, runs, turns) {
            Ok(came) => {
                for seen in came {
                    *tally.seen.entry(seen).or_default() += 1;
                }
            }
            Err((turn, apart)) => {
                if profile == Profile::Separate {
                    let files =
                        [0, 1].map(|which: usize| hexadecimal(&twins.recipes[which].write()));
                    panic!("bay {}, turn {turn}: {apart:?}\n{files:?}", twins.bay);
                }
                tally.apart.push(apart);
            }
        }
    }
    println!(
        "{} pairs, editions {:?}, seen {:?}, apart {}",
        tally.pairs,
        tally.editions,
        tally.seen,
        tally.apart.len()
    );
    tally
}

/// Every answer comes often enough, and every two editions.
fn says_enough(tally: &Tally) {
    let of = |wanted: fn(&Seen) -> bool| {
        let some = tally.seen.iter().filter(|(seen, _)| wanted(seen));
        some.map(|(_, count)| count).sum::<usize>()
    };
    for rule in 1..=9 {
        let count = tally.seen.get(&Seen::Rule(rule)).copied().unwrap_or(0);
        assert!(count > 0, "rule {rule}");
    }
    assert!(of(|seen| *seen == Seen::Room) > tally.pairs / 4);
    assert!(of(|seen| *seen == Seen::Done) > tally.pairs / 4);
    assert!(of(|seen| matches!(seen, Seen::Waiting(_))) > tally.pairs / 4);
    assert_eq!(of(|seen| matches!(seen, Seen::Refused(_))), 0);
    assert_eq!(tally.editions.len(), 9, "{:?}", tally.editions);
    assert!(tally.apart.is_empty());
}

#[test]
fn a_bay_goes_its_own_way() {
    on_deep_stack(|| says_enough(&tried(&Model, Profile::Separate, (1, 200))));
}

#[test]
fn a_bay_of_the_plain_twin_goes_its_own_way() {
    on_deep_stack(|| says_enough(&tried(&Plain, Profile::Separate, (2, 1_200))));
}

#[cfg(feature = "library")]
#[test]
fn a_bay_of_the_library_goes_its_own_way() {
    let library = model::ffi::Library;
    on_deep_stack(|| says_enough(&tried(&library, Profile::Separate, (3, 1_200))));
}

/// In the common profile the same recipes come apart: a neighbour takes up the room.
#[test]
fn common_bays_take_each_others_room() {
    on_deep_stack(|| {
        let tally = tried(&Plain, Profile::Common, (4, 600));
        let room = |apart: &&Apart| {
            matches!(
                apart,
                Apart::Answers(Seen::Room, _) | Apart::Answers(_, Seen::Room)
            )
        };
        let by_room = tally.apart.iter().filter(room).count();
        assert_eq!(by_room, tally.apart.len(), "nothing else");
        assert!(by_room > 3);
    });
}

/// A bay that exchanges its setting with nums, and a neighbour that takes one of them, which the separate
/// loader refuses: in the common profile the bay's setting comes apart.
#[test]
fn a_common_neighbour_reaches_the_setting() {
    use model::by_hand::*;
    let recipe = |of_neighbour: u8| {
        let mut types = Types::of(FIRST);
        let then = types.many(NUM, NUM);
        let exch = constant(model::types::Constant::Exch, types.many(SETTING, then));
        let exchanges = |k, value| apply(apply(exch.clone(), setting(k)), num(value));
        let again = apply(lambda(then, exchanges(0, 9)), exchanges(0, 5));
        types.recipe(vec![again, exchanges(of_neighbour, 70)])
    };
    let twins = Twins {
        recipes: [recipe(1), recipe(0)],
        bay: 0,
        numbers: BTreeMap::new(),
    };
    assert!(watched(&Model, Profile::Separate, &twins).is_none());
    let reached = (1..40).any(|seed| {
        let runs = watched(&Model, Profile::Common, &twins).expect("accepted");
        let came = go(&mut Draw::new(seed), runs, 6);
        matches!(came, Err((_, Apart::Setting | Apart::Others)))
    });
    assert!(reached);
}

/// The pairs are what the claim asks for: terms that differ in type numbers, and neighbours that differ.
#[test]
fn the_pairs_differ_but_for_the_bay() {
    let mut draw = Draw::new(5);
    let (mut pairs, mut numbers, mut neighbours) = (0, 0, 0);
    while pairs < 300 {
        let made = match twins(&mut draw) {
            Some(made) => made,
            None => continue,
        };
        pairs += 1;
        let [first, second] = &made.recipes;
        assert_eq!(first.terms.len(), second.terms.len());
        let edition = |recipe: &Recipe| Edition::of(recipe.edition).expect("an edition");
        let start = |recipe: &Recipe| match edition(recipe).starting {
            true => recipe.starts[made.bay],
            false => 0,
        };
        assert_eq!(start(first), start(second));
        let (one, other) = (&first.terms[made.bay], &second.terms[made.bay]);
        numbers += usize::from(one != other);
        neighbours += usize::from(
            (0..first.terms.len())
                .any(|bay| bay != made.bay && first.terms[bay].len() != second.terms[bay].len()),
        );
        assert_eq!(one.len(), other.len());
        let mut told = other.clone();
        for node in &mut told {
            if let Some(number) = node.type_number_mut() {
                *number = made.numbers[number];
            }
        }
        assert_eq!(&told, one);
    }
    println!("{numbers} with other type numbers, {neighbours} with other neighbours");
    assert!(numbers > 80 && neighbours > 150);
}
