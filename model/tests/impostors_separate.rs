//! The comparison finds those that keep bays apart (document 02, T-09) only by half.

mod impostor;

use impostor::*;
use model::answers::{LoadedAnswer, SteppedAnswer, DONE, REFUSED, RULE, WAITING};
use model::causes;
use model::config::{Component, Configuration};
use model::image::{read_image, write_image};
use model::limits;
use model::nodes::{write_term, Node};
use model::profile::{bays, keeps_shares, owned, share, Amount};
use model::reduce::{move_of, Move};
use model::types::Constant;
use model::verdict::read_recipe;

/// How many recipes an impostor is given at most.
const RECIPES: u64 = 4_000;
/// How many the honest ones are given.
const FEW: u64 = 400;

fn loader_is_found(load: Load) -> bool {
    is_found_among(&with_load_separate(load), RECIPES)
}

fn stepper_is_found(step: Step) -> bool {
    is_found_among(&with_step_separate(step), RECIPES)
}

/// The terms of a recipe.
type Terms = [Vec<Node>];

/// A load that is refused for something else after the checker's causes.
fn loading(recipe: &[u8], out: &mut [u8], refusal: fn(&Terms) -> u32) -> LoadedAnswer {
    let before = out.to_vec();
    let answer = load(recipe, out);
    if answer.refusal != 0 {
        return answer;
    }
    let number = refusal(&read_recipe(recipe).expect("accepted").terms);
    if number == 0 {
        return answer;
    }
    out.copy_from_slice(&before);
    refused_load(number)
}

fn refused_load(refusal: u32) -> LoadedAnswer {
    LoadedAnswer {
        refusal,
        ..LoadedAnswer::default()
    }
}

/// 20 and then 21, each asked in its own way of a bay: its number, its term and the number of bays.
fn asked(
    terms: &Terms,
    other: fn(usize, &[Node], usize) -> bool,
    above: fn(usize, &[Node], usize) -> bool,
) -> u32 {
    let any = |asks: fn(usize, &[Node], usize) -> bool| {
        let mut each = terms.iter().enumerate();
        each.any(|(bay, term)| asks(bay, term, terms.len()))
    };
    match (any(other), any(above)) {
        (true, _) => causes::OTHER_SETTING,
        (_, true) => causes::SHARE,
        _ => 0,
    }
}

fn is_another(bay: usize, node: &Node) -> bool {
    matches!(node, Node::Name(k) if usize::from(*k) != bay)
}

fn names_another(bay: usize, term: &[Node], _: usize) -> bool {
    term.iter().any(|node| is_another(bay, node))
}

/// The setting's node and the term's.
fn starts_above(_: usize, term: &[Node], bays: usize) -> bool {
    1 + term.len() > share(bays).nodes
}

/// For each node the nodes around it, and which subterm of each it is in.
fn around(term: &[Node]) -> Vec<Vec<(Node, usize)>> {
    let mut found = Vec::new();
    let mut coming = vec![Vec::new()];
    for node in term {
        let here = coming.pop().expect("a term");
        for subterm in (0..node.subterms()).rev() {
            coming.push([&here[..], &[(*node, subterm)]].concat());
        }
        found.push(here);
    }
    found
}

/// Whether another's setting is named with none of these around it.
fn named_outside(bay: usize, term: &[Node], skips: fn(Node, usize) -> bool) -> bool {
    let each = term.iter().zip(around(term));
    let mut asked = each.filter(|(_, around)| !around.iter().any(|(node, at)| skips(*node, *at)));
    asked.any(|(node, _)| is_another(bay, node))
}

/// A rule about to be applied: what is handed in, the thread, and the outcome.
struct Asked {
    now: Configuration,
    thread: usize,
    next: Configuration,
}

impl Asked {
    /// The stepping thread's bay.
    fn own(&self) -> usize {
        usize::from(self.now.owners[self.thread])
    }

    /// Whether these bays of the outcome keep their share.
    fn keep(&self, fits: impl Fn(usize) -> bool) -> bool {
        let b = bays(&self.now);
        let mut asked = (0..b).filter(|bay| fits(*bay));
        asked.all(|bay| owned(&self.next, bay).is_within(share(b)))
    }

    /// Whether the outcome keeps shares of so many bays.
    fn keeps_shares_of(&self, b: usize) -> bool {
        let b = b.max(1);
        (0..limits::MAX_BAYS).all(|bay| owned(&self.next, bay).is_within(share(b)))
    }

    /// Whether the outcome keeps its shares when some components are not counted.
    fn keeps_without(&self, skips: fn(usize, &Component) -> bool) -> bool {
        let mut counted = Configuration::default();
        let all = self.next.components.iter().zip(&self.next.owners);
        for (name, (component, owner)) in all.enumerate() {
            if !skips(name, component) {
                counted = counted.and(component.clone(), *owner);
            }
        }
        keeps_shares(&counted, bays(&self.now))
    }

    /// Whether the outcome keeps its shares when some names count for other bays.
    fn keeps_with_owners(&self, owner: impl Fn(&Asked, usize) -> u8) -> bool {
        let mut counted = self.next.clone();
        for name in 0..counted.names() {
            counted.owners[name] = owner(self, name);
        }
        keeps_shares(&counted, bays(&self.now))
    }
}

fn no_room() -> SteppedAnswer {
    SteppedAnswer {
        outcome: REFUSED,
        number: causes::ROOM,
        length: 0,
    }
}

/// A step that asks for room in its own way.
fn stepping(
    image: &[u8],
    thread: u64,
    out: &mut [u8],
    has_room: fn(&Asked) -> bool,
) -> SteppedAnswer {
    let untouched = step_separate(image, thread, &mut out.to_vec());
    let applies = untouched.outcome == RULE || untouched == no_room();
    if !applies {
        return untouched;
    }
    let now = read_image(image).expect("it was stepped");
    let thread = thread as usize;
    let (rule, next) = match move_of(&now, thread) {
        Move::Rule(rule, next) => (rule, next),
        _ => return untouched,
    };
    let asked = Asked { now, thread, next };
    let room = has_room(&asked);
    let written = write_image(&asked.next);
    if !room || written.len() > out.len() {
        return no_room();
    }
    out[..written.len()].copy_from_slice(&written);
    SteppedAnswer {
        outcome: RULE,
        number: u32::from(rule),
        length: written.len() as u64,
    }
}

#[test]
fn the_honest_one_passes_and_those_that_change_nothing() {
    assert!(!is_found_among(&HONEST, FEW));
    let same_load: Load = |recipe, out| {
        loading(recipe, out, |terms| {
            asked(terms, names_another, starts_above)
        })
    };
    let all_places: Load = |recipe, out| {
        loading(recipe, out, |terms| {
            asked(
                terms,
                |bay, term, _| named_outside(bay, term, |_, _| false),
                starts_above,
            )
        })
    };
    for load in [same_load, all_places] {
        assert!(!is_found_among(&with_load_separate(load), FEW));
    }
    let same_step: Step = |image, thread, out| {
        stepping(image, thread, out, |asked| {
            keeps_shares(&asked.next, bays(&asked.now))
        })
    };
    let every_bay: Step =
        |image, thread, out| stepping(image, thread, out, |asked| asked.keep(|_| true));
    let of_b: Step = |image, thread, out| {
        stepping(image, thread, out, |asked| {
            asked.keeps_shares_of(bays(&asked.now))
        })
    };
    let all_names: Step = |image, thread, out| {
        stepping(image, thread, out, |asked| {
            asked.keeps_without(|_, _| false)
                && asked.keeps_with_owners(|asked, name| asked.next.owners[name])
        })
    };
    for step in [same_step, every_bay, of_b, all_names] {
        assert!(!is_found_among(&with_step_separate(step), FEW));
    }
}

/// The other profile's loader and stepper.
#[test]
fn those_of_the_common_profile() {
    assert!(loader_is_found(load));
    assert!(stepper_is_found(step));
    assert!(is_found_among(&with_load(load_separate), RECIPES));
    assert!(is_found_among(&with_step(step_separate), RECIPES));
}

/// Asks 20 only outside some places.
macro_rules! skipping {
    ($skips:expr) => {
        |recipe: &[u8], out: &mut [u8]| {
            loading(recipe, out, |terms| {
                asked(
                    terms,
                    |bay, term, _| named_outside(bay, term, $skips),
                    starts_above,
                )
            })
        }
    };
}

/// "bay k's terms name only setting k", wherever the name stands.
#[test]
fn a_loader_that_does_not_look_everywhere() {
    let loads: [Load; 10] = [
        skipping!(|node, _| matches!(node, Node::Lambda(_))),
        skipping!(|node, at| node == Node::Application && at == 1),
        skipping!(|node, at| node == Node::Application && at == 0),
        skipping!(|node, _| matches!(node, Node::Pair(_))),
        skipping!(|node, at| matches!(node, Node::Pair(_)) && at == 0),
        skipping!(|node, at| matches!(node, Node::Pair(_)) && at == 1),
        skipping!(|node, _| matches!(node, Node::Front(_))),
        skipping!(|node, _| matches!(node, Node::Case(_))),
        skipping!(|node, at| matches!(node, Node::Case(_)) && at == 0),
        skipping!(|node, at| matches!(node, Node::Case(_)) && at == 1),
    ];
    for (number, load) in loads.into_iter().enumerate() {
        assert!(loader_is_found(load), "{number}");
    }
}

/// Asks 20 in another way.
macro_rules! naming {
    ($other:expr) => {
        |recipe: &[u8], out: &mut [u8]| {
            loading(recipe, out, |terms| asked(terms, $other, starts_above))
        }
    };
}

#[test]
fn a_loader_that_asks_about_other_names() {
    let loads: [Load; 9] = [
        naming!(|_, _, _| false),
        // every name but setting 0
        naming!(|_, term, bays| names_another(0, term, bays)),
        // setting 0 is everybody's
        naming!(|bay, term, _| term
            .iter()
            .any(|node| is_another(bay, node) && *node != Node::Name(0))),
        // only higher ones, or only lower ones
        naming!(|bay, term, _| term
            .iter()
            .any(|node| matches!(node, Node::Name(k) if usize::from(*k) > bay))),
        naming!(|bay, term, _| term
            .iter()
            .any(|node| matches!(node, Node::Name(k) if usize::from(*k) < bay))),
        // the last bay, or the first, is not asked
        naming!(|bay, term, bays| bay + 1 < bays && names_another(bay, term, bays)),
        naming!(|bay, term, bays| bay > 0 && names_another(bay, term, bays)),
        // only the first name of a term
        naming!(|bay, term, _| {
            let mut names = term.iter().filter(|node| matches!(node, Node::Name(_)));
            names.next().map_or(false, |node| is_another(bay, node))
        }),
        // only what is given to an exch
        naming!(|bay, term, _| {
            let pairs = term.windows(2);
            let mut given = pairs.filter(|two| matches!(two[0], Node::Constant(Constant::Exch, _)));
            given.any(|two| is_another(bay, &two[1]))
        }),
    ];
    for (number, load) in loads.into_iter().enumerate() {
        assert!(loader_is_found(load), "{number}");
    }
}

/// Asks 21 in another way.
macro_rules! starting {
    ($above:expr) => {
        |recipe: &[u8], out: &mut [u8]| {
            loading(recipe, out, |terms| asked(terms, names_another, $above))
        }
    };
}

/// "a bay that starts above its share"
#[test]
fn a_loader_with_other_shares() {
    let loads: [Load; 13] = [
        starting!(|_, _, _| false),
        // the setting's node does not count
        starting!(|_, term, bays| term.len() > share(bays).nodes),
        // above from the share on
        starting!(|_, term, bays| 1 + term.len() >= share(bays).nodes),
        // rounded up
        starting!(|_, term, bays| 1 + term.len() > (limits::MAX_NODES + bays - 1) / bays),
        // rounded to the nearest
        starting!(|_, term, bays| 1 + term.len() > (limits::MAX_NODES + bays / 2) / bays),
        // of one bay more, and of one bay less
        starting!(|_, term, bays| 1 + term.len() > share(bays + 1).nodes),
        starting!(|_, term, bays| 1 + term.len() > share((bays - 1).max(1)).nodes),
        // of sixteen bays, whatever their number
        starting!(|_, term, _| 1 + term.len() > share(limits::MAX_BAYS).nodes),
        // of a recipe's nodes
        starting!(|_, term, bays| term.len() > limits::MAX_RECIPE_NODES / bays),
        // bytes
        starting!(|_, term, bays| 3 + write_term(term).len() > share(bays).nodes),
        // the first bay alone, and all but the last
        starting!(|bay, term, bays| bay == 0 && starts_above(bay, term, bays)),
        starting!(|bay, term, bays| bay + 1 < bays && starts_above(bay, term, bays)),
        // two nodes for a setting
        starting!(|_, term, bays| 2 + term.len() > share(bays).nodes),
    ];
    for (number, load) in loads.into_iter().enumerate() {
        assert!(loader_is_found(load), "{number}");
    }
}

/// "with 20 and then .. with 21, both after 19"
#[test]
fn a_loader_of_another_order() {
    let share_first: Load = |recipe, out| {
        loading(recipe, out, |terms| {
            match asked(terms, |_, _, _| false, starts_above) {
                0 => asked(terms, names_another, starts_above),
                number => number,
            }
        })
    };
    // each bay in its turn
    let bay_by_bay: Load = |recipe, out| {
        loading(recipe, out, |terms| {
            let bays = terms.len();
            let of_bay = |(bay, term): (usize, &Vec<Node>)| match () {
                () if names_another(bay, term, bays) => causes::OTHER_SETTING,
                () if starts_above(bay, term, bays) => causes::SHARE,
                () => 0,
            };
            let mut numbers = terms.iter().enumerate().map(of_bay);
            numbers.find(|number| *number != 0).unwrap_or(0)
        })
    };
    // before 7 to 11 and 19
    let before_types: Load = |recipe, out| match read_recipe(recipe) {
        Ok(read) if out.len() >= limits::MAX_IMAGE => {
            let terms = &read.terms;
            match asked(terms, names_another, |_, _, _| false) {
                0 => load_separate(recipe, out),
                number => refused_load(number),
            }
        }
        _ => load_separate(recipe, out),
    };
    // before 19 alone
    let before_starting: Load = |recipe, out| {
        let answer = load_separate(recipe, out);
        match (answer.refusal, read_recipe(recipe)) {
            (causes::STARTING, Ok(read)) => match asked(&read.terms, names_another, starts_above) {
                0 => answer,
                number => refused_load(number),
            },
            _ => answer,
        }
    };
    // before 12
    let before_buffer: Load = |recipe, out| {
        let answer = load_separate(recipe, out);
        if answer.refusal != causes::BUFFER {
            return answer;
        }
        match load_separate(recipe, &mut vec![0; limits::MAX_IMAGE]).refusal {
            number @ (causes::OTHER_SETTING | causes::SHARE) => refused_load(number),
            _ => answer,
        }
    };
    for (number, load) in [
        share_first,
        bay_by_bay,
        before_types,
        before_starting,
        before_buffer,
    ]
    .into_iter()
    .enumerate()
    {
        assert!(loader_is_found(load), "{number}");
    }
}

#[test]
fn a_loader_that_answers_otherwise() {
    fn other<const FROM: u32, const TO: u32>(recipe: &[u8], out: &mut [u8]) -> LoadedAnswer {
        let answer = load_separate(recipe, out);
        match answer.refusal == FROM {
            true => refused_load(TO),
            false => answer,
        }
    }
    let swapped: Load = other::<{ causes::OTHER_SETTING }, { causes::SHARE }>;
    let no_21: Load = other::<{ causes::SHARE }, { causes::OTHER_SETTING }>;
    let room: Load = other::<{ causes::SHARE }, { causes::ROOM }>;
    let scope: Load = other::<{ causes::OTHER_SETTING }, { causes::SCOPE }>;
    // the image is there all the same
    let writes: Load = |recipe, out| {
        let answer = load_separate(recipe, out);
        if answer.refusal >= causes::OTHER_SETTING {
            load(recipe, out);
        }
        answer
    };
    // the bays and their types too
    let tells: Load = |recipe, out| {
        let answer = load_separate(recipe, out);
        match answer.refusal {
            causes::OTHER_SETTING | causes::SHARE => LoadedAnswer {
                refusal: answer.refusal,
                length: 0,
                ..load(recipe, &mut vec![0; limits::MAX_IMAGE])
            },
            _ => answer,
        }
    };
    for (number, load) in [swapped, no_21, room, scope, writes, tells]
        .into_iter()
        .enumerate()
    {
        assert!(loader_is_found(load), "{number}");
    }
}

/// Asks for room in another way.
macro_rules! room {
    ($has_room:expr) => {
        |image: &[u8], thread: u64, out: &mut [u8]| stepping(image, thread, out, $has_room)
    };
}

/// Every stepper is found.
fn all_are_found(steps: &[Step]) {
    for (number, step) in steps.iter().enumerate() {
        assert!(stepper_is_found(*step), "{number}");
    }
}

/// Whether every bay of the outcome has this: what it owns, and the number of bays.
fn each(asked: &Asked, fits: fn(Amount, usize) -> bool) -> bool {
    let b = bays(&asked.now);
    (0..b).all(|bay| fits(owned(&asked.next, bay), b))
}

/// "4,096 divided by b nodes and 256 divided by b names, rounded down"
#[test]
fn a_stepper_with_other_shares() {
    all_are_found(&[
        // rounded up: the nodes, and the names
        room!(|asked| each(asked, |has, b| {
            has.nodes <= (limits::MAX_NODES + b - 1) / b && has.names <= share(b).names
        })),
        room!(|asked| each(asked, |has, b| {
            has.names <= (limits::MAX_NAMES + b - 1) / b && has.nodes <= share(b).nodes
        })),
        // one more, and one less
        room!(|asked| each(asked, |has, b| {
            has.nodes <= share(b).nodes + 1 && has.names <= share(b).names
        })),
        room!(|asked| each(asked, |has, b| {
            has.names <= share(b).names + 1 && has.nodes <= share(b).nodes
        })),
        room!(|asked| each(asked, |has, b| {
            has.nodes < share(b).nodes && has.names <= share(b).names
        })),
        room!(|asked| each(asked, |has, b| {
            has.names < share(b).names && has.nodes <= share(b).nodes
        })),
        // only the nodes, only the names
        room!(|asked| each(asked, |has, b| has.nodes <= share(b).nodes)
            && asked.next.is_within_limits()),
        room!(|asked| each(asked, |has, b| has.names <= share(b).names)
            && asked.next.is_within_limits()),
        // both above before it is refused
        room!(|asked| each(asked, |has, b| {
            has.nodes <= share(b).nodes || has.names <= share(b).names
        }) && asked.next.is_within_limits()),
        // no shares
        room!(|asked| asked.next.is_within_limits()),
    ]);
}

/// "one more than the highest owner in the image"
#[test]
fn a_stepper_of_another_b() {
    fn highest(asked: &Asked, counts: fn(&Component) -> bool) -> usize {
        let all = asked.now.components.iter().zip(&asked.now.owners);
        let some = all.filter(|(component, _)| counts(component));
        some.map(|(_, owner)| usize::from(*owner) + 1)
            .max()
            .unwrap_or(1)
    }
    all_are_found(&[
        // the highest owner
        room!(|asked| asked.keeps_shares_of(bays(&asked.now) - 1)),
        // one bay too many
        room!(|asked| asked.keeps_shares_of(bays(&asked.now) + 1)),
        // the bays that own something
        room!(|asked| {
            let mut live = asked.now.owners.clone();
            live.sort_unstable();
            live.dedup();
            asked.keeps_shares_of(live.len())
        }),
        // the highest of threads, of cells, of what has an expression, of what is no handle
        room!(|asked| asked
            .keeps_shares_of(highest(asked, |one| matches!(one, Component::Thread(_))))),
        room!(
            |asked| asked.keeps_shares_of(highest(asked, |one| matches!(one, Component::Cell(_))))
        ),
        room!(|asked| asked.keeps_shares_of(highest(asked, |one| one.expression().is_some()))),
        room!(|asked| asked
            .keeps_shares_of(highest(asked, |one| !matches!(one, Component::UsedHandle)))),
        room!(
            |asked| asked.keeps_shares_of(highest(asked, |one| !matches!(
                one,
                Component::Future | Component::OpenHandle(_)
            )))
        ),
        // the stepping thread's bay
        room!(|asked| asked.keeps_shares_of(asked.own() + 1)),
        // the last name's owner
        room!(|asked| asked
            .keeps_shares_of(usize::from(*asked.now.owners.last().expect("a thread")) + 1)),
        // the first name's
        room!(|asked| asked.keeps_shares_of(usize::from(asked.now.owners[0]) + 1)),
        // always sixteen
        room!(|asked| asked.keeps_shares_of(limits::MAX_BAYS)),
        // the settings that a load would have put first
        room!(|asked| {
            let first = asked.now.components.iter();
            let settings = first.take_while(|one| matches!(one, Component::Cell(_)));
            asked.keeps_shares_of(settings.count())
        }),
    ]);
}

/// "leaves any bay above its share"
#[test]
fn a_stepper_that_asks_some_bays() {
    all_are_found(&[
        // the stepping thread's, and all but that
        room!(|asked| asked.keep(|bay| bay == asked.own()) && asked.next.is_within_limits()),
        room!(|asked| asked.keep(|bay| bay != asked.own()) && asked.next.is_within_limits()),
        // those that the rule gives or takes something
        room!(
            |asked| asked.keep(|bay| owned(&asked.now, bay) != owned(&asked.next, bay))
                && asked.next.is_within_limits()
        ),
        // those that have more after it
        room!(|asked| asked.keep(|bay| {
            let (before, after) = (owned(&asked.now, bay), owned(&asked.next, bay));
            after.nodes > before.nodes || after.names > before.names
        }) && asked.next.is_within_limits()),
        // those that had not been above before
        room!(|asked| asked
            .keep(|bay| { owned(&asked.now, bay).is_within(share(bays(&asked.now))) })
            && asked.next.is_within_limits()),
        // all but the first, and all but the last
        room!(|asked| asked.keep(|bay| bay > 0) && asked.next.is_within_limits()),
        room!(|asked| asked.keep(|bay| bay + 1 < bays(&asked.now)) && asked.next.is_within_limits()),
    ]);
}

/// "a rule whose outcome leaves": only the outcome counts.
#[test]
fn a_stepper_that_counts_what_is_handed_in() {
    all_are_found(&[
        room!(|asked| keeps_shares(&asked.now, bays(&asked.now)) && asked.next.is_within_limits()),
        // both
        room!(|asked| {
            let b = bays(&asked.now);
            keeps_shares(&asked.now, b) && keeps_shares(&asked.next, b)
        }),
        // the names before, the nodes after
        room!(|asked| {
            let b = bays(&asked.now);
            (0..b).all(|bay| {
                let counted = Amount {
                    names: owned(&asked.now, bay).names,
                    nodes: owned(&asked.next, bay).nodes,
                };
                counted.is_within(share(b))
            }) && asked.next.is_within_limits()
        }),
        // the nodes before, the names after
        room!(|asked| {
            let b = bays(&asked.now);
            (0..b).all(|bay| {
                let counted = Amount {
                    names: owned(&asked.next, bay).names,
                    nodes: owned(&asked.now, bay).nodes,
                };
                counted.is_within(share(b))
            }) && asked.next.is_within_limits()
        }),
    ]);
}

/// "counted over what it owns": names of all kinds, and the nodes of cells and threads.
#[test]
fn a_stepper_that_does_not_count_everything() {
    all_are_found(&[
        room!(|asked| asked.keeps_without(|_, one| matches!(one, Component::OpenHandle(_)))),
        room!(|asked| asked.keeps_without(|_, one| matches!(one, Component::UsedHandle))),
        room!(|asked| asked.keeps_without(|_, one| matches!(one, Component::Future))),
        room!(|asked| asked.keeps_without(|_, one| matches!(one, Component::Cell(_)))),
        room!(|asked| asked.keeps_without(|_, one| matches!(one, Component::Thread(_)))),
        // threads that are done
        room!(|asked| asked
            .keeps_without(|_, one| matches!(one, Component::Thread(e) if e.is_value()))),
        // a setting's node: that of the first cell of a bay
        room!(|asked| {
            let b = bays(&asked.now);
            (0..b).all(|bay| {
                let has = owned(&asked.next, bay);
                let all = asked.next.components.iter().zip(&asked.next.owners);
                let own = all.filter(|(_, owner)| usize::from(**owner) == bay);
                let mut cells = own.filter(|(one, _)| matches!(one, Component::Cell(_)));
                let setting = cells.next().and_then(|(cell, _)| cell.expression());
                let counted = Amount {
                    nodes: has.nodes - setting.map_or(0, |value| value.size()),
                    ..has
                };
                counted.is_within(share(b))
            })
        }),
        // the nodes of cells
        room!(|asked| each(asked, |has, b| has.names <= share(b).names)
            && asked.keeps_without(|_, one| matches!(one, Component::Cell(_)))),
        // names that came by the rule
        room!(|asked| {
            let b = bays(&asked.now);
            let mut counted = asked.next.clone();
            counted.components.truncate(asked.now.names());
            counted.owners.truncate(asked.now.names());
            keeps_shares(&counted, b) && asked.next.is_within_limits()
        }),
    ]);
}

/// The owner of a name is told by its companion, that of an open handle by its future's.
#[test]
fn a_stepper_that_counts_for_another_bay() {
    all_are_found(&[
        // an open handle for the bay of its companion byte
        room!(
            |asked| asked.keeps_with_owners(|asked, name| match asked.next.components[name] {
                Component::OpenHandle(future) => future,
                _ => asked.next.owners[name],
            }) && asked.next.is_within_limits()
        ),
        // an open handle for bay 0
        room!(
            |asked| asked.keeps_with_owners(|asked, name| match asked.next.components[name] {
                Component::OpenHandle(_) => 0,
                _ => asked.next.owners[name],
            }) && asked.next.is_within_limits()
        ),
        // an open handle for the stepping thread's bay
        room!(
            |asked| asked.keeps_with_owners(|asked, name| match asked.next.components[name] {
                Component::OpenHandle(_) => asked.own() as u8,
                _ => asked.next.owners[name],
            }) && asked.next.is_within_limits()
        ),
        // a future bound or a cell exchanged for the stepping thread's bay
        room!(|asked| asked.keeps_with_owners(|asked, name| {
            match asked.now.components.get(name) {
                Some(before) if *before != asked.next.components[name] => asked.own() as u8,
                _ => asked.next.owners[name],
            }
        }) && asked.next.is_within_limits()),
        // new names for bay 0
        room!(
            |asked| asked.keeps_with_owners(|asked, name| match name < asked.now.names() {
                true => asked.next.owners[name],
                false => 0,
            }) && asked.next.is_within_limits()
        ),
    ]);
}

#[test]
fn a_stepper_that_answers_otherwise() {
    // an image above its shares is broken
    let broken: Step = |image, thread, out| {
        let before = out.to_vec();
        let answer = step_separate(image, thread, out);
        match read_image(image) {
            Some(now)
                if before.len() >= limits::MAX_IMAGE && !keeps_shares(&now, bays(&now).max(1)) =>
            {
                out.copy_from_slice(&before);
                BROKEN
            }
            _ => answer,
        }
    };
    // a thread of such an image has no room, whatever it is at
    let no_room_at_all: Step = |image, thread, out| {
        let answer = step_separate(image, thread, out);
        match (answer.outcome, read_image(image)) {
            (DONE | WAITING, Some(now)) if !keeps_shares(&now, bays(&now)) => no_room(),
            _ => answer,
        }
    };
    let share_cause: Step = |image, thread, out| {
        let answer = step_separate(image, thread, out);
        match answer == no_room() {
            true => SteppedAnswer {
                number: causes::SHARE,
                ..answer
            },
            false => answer,
        }
    };
    // the outcome is there all the same
    let writes: Step = |image, thread, out| {
        let answer = step_separate(image, thread, out);
        if answer == no_room() {
            step(image, thread, out);
        }
        answer
    };
    all_are_found(&[broken, no_room_at_all, share_cause, writes]);
}
