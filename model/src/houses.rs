//! Houses for the runner: bays that go on for ever, wait, take up room or give it back.

use crate::by_hand::*;
use crate::editions::{Edition, FIRST, SECOND};
use crate::format::Recipe;
use crate::limits::MAX_BAYS;
use crate::types::{Constant, Multiplicity, Shape};

/// What a loop makes each time round.
#[derive(Debug, Clone, Copy, PartialEq, Eq)]
pub enum Makes {
    Nothing,
    Cells,
    Threads,
    Handles,
}

/// A bay of a house.
#[derive(Debug, Clone, Copy, PartialEq, Eq)]
pub enum Bay {
    /// Done from the start.
    Done,
    /// So many steps, then done.
    Steps(usize),
    /// A function put into itself twice, so often; it is kept.
    Doubles(usize),
    /// The same by a case, where the edition has pairs.
    Pairs(usize),
    /// The same held for so many steps and then dropped.
    Holds(usize, usize),
    Loops(Makes),
    /// A thread that waits for itself, and the bay's own for that one.
    Waits,
}

/// The recipe of these bays.
pub fn house(edition: Edition, bays: &[Bay]) -> Recipe {
    let mut types = Types::of(edition);
    let terms = bays.iter().map(|bay| term(&mut types, *bay)).collect();
    types.recipe(terms)
}

fn term(types: &mut Types, bay: Bay) -> Term {
    match bay {
        Bay::Done => unit(),
        Bay::Steps(count) => steps(types, count),
        Bay::Doubles(times) => {
            let identity = identity(types);
            doubled(types, times, identity)
        }
        Bay::Pairs(times) if types.0.has_compounds() => paired(types, times),
        Bay::Pairs(times) => term(types, Bay::Doubles(times)),
        Bay::Holds(times, count) => held(types, times, count),
        Bay::Loops(makes) => looping(types, makes),
        Bay::Waits => waiting(types),
    }
}

/// The type unit →ω unit.
fn pass(types: &mut Types) -> u8 {
    types.many(UNIT, UNIT)
}

/// λx:unit. x
fn identity(types: &mut Types) -> Term {
    lambda(pass(types), variable(0))
}

/// Identities around unit.
fn steps(types: &mut Types, count: usize) -> Term {
    let identity = identity(types);
    (0..count).fold(unit(), |inner, _| apply(identity.clone(), inner))
}

/// λx:unit. f (f x), f being that variable outside.
fn twice(types: &mut Types, f: u8) -> Term {
    let f = || variable(f + 1);
    lambda(pass(types), apply(f(), apply(f(), variable(0))))
}

/// λf. λx:unit. f (f x), so often around that function.
fn doubled(types: &mut Types, times: usize, function: Term) -> Term {
    let pass = pass(types);
    let double = lambda(types.many(pass, pass), twice(types, 0));
    (0..times).fold(function, |inner, _| apply(double.clone(), inner))
}

/// case (f, unit) of (f, y) ⇒ λx:unit. f (f x), so often around the identity.
fn paired(types: &mut Types, times: usize) -> Term {
    let pass = pass(types);
    let whole = types.pair(Multiplicity::Many, pass, UNIT);
    let body = twice(types, 1);
    let around = |inner| case(Shape::Pair, pair(whole, inner, unit()), body.clone());
    (0..times).fold(identity(types), |inner, _| around(inner))
}

/// (λf. unit) ((λf. λx:unit. f) doubled steps)
fn held(types: &mut Types, times: usize, count: usize) -> Term {
    let pass = pass(types);
    let drops = types.many(pass, UNIT);
    let holds = types.many(UNIT, pass);
    let keeps = types.many(pass, holds);
    let identity = identity(types);
    let large = doubled(types, times, identity);
    let keeping = apply(lambda(keeps, lambda(holds, variable(1))), large);
    let steps = steps(types, count);
    apply(lambda(drops, unit()), apply(keeping, steps))
}

/// thread (λf. body), a function from unit to unit that knows its own name.
fn own_name(types: &mut Types, body: Term) -> Term {
    let pass = pass(types);
    let inner = types.many(pass, pass);
    let whole = types.many(inner, pass);
    apply(constant(Constant::Thread, whole), lambda(inner, body))
}

/// (λf. f unit) (thread (λf. λx:unit. ..; f unit))
fn looping(types: &mut Types, makes: Makes) -> Term {
    let pass = pass(types);
    let start = types.many(pass, UNIT);
    let body = lambda(pass, round(types, makes));
    let function = own_name(types, body);
    apply(lambda(start, apply(variable(0), unit())), function)
}

/// Once round the loop, whose function is variable 1.
fn round(types: &mut Types, makes: Makes) -> Term {
    let pass = pass(types);
    let again = |depth: u8| apply(variable(1 + depth), unit());
    match makes {
        Makes::Nothing => again(0),
        Makes::Cells => {
            let whole = types.many(NUM, SETTING);
            let then = lambda(types.many(SETTING, UNIT), again(1));
            apply(then, apply(constant(Constant::Cell, whole), num(3)))
        }
        Makes::Threads => {
            let whole = types.many(pass, UNIT);
            let thread = apply(constant(Constant::Thread, whole), identity_unit(pass));
            apply(lambda(pass, again(1)), thread)
        }
        Makes::Handles => {
            let bind = types.once(UNIT, UNIT);
            let with_bind = types.many(bind, UNIT);
            let with_future = types.many(UNIT, with_bind);
            let whole = types.many(with_future, UNIT);
            let bound = apply(variable(0), unit());
            let body = apply(lambda(pass, again(3)), bound);
            let function = lambda(with_future, lambda(with_bind, body));
            apply(constant(Constant::Handle, whole), function)
        }
    }
}

/// λx:unit. unit
fn identity_unit(pass: u8) -> Term {
    lambda(pass, unit())
}

/// thread (λf. (λx:unit. f) (f unit)): it waits for itself.
fn waits_for_itself(types: &mut Types) -> Term {
    let pass = pass(types);
    let result = types.many(UNIT, pass);
    let needed = apply(variable(0), unit());
    own_name(types, apply(lambda(result, variable(1)), needed))
}

fn waiting(types: &mut Types) -> Term {
    let pass = pass(types);
    let start = types.many(pass, UNIT);
    let needs = lambda(start, apply(variable(0), unit()));
    apply(needs, waits_for_itself(types))
}

/// Sixteen bays of which one goes on for ever and the others are done.
pub fn one_moves() -> Recipe {
    let mut bays = [Bay::Done; MAX_BAYS];
    bays[0] = Bay::Loops(Makes::Nothing);
    house(FIRST, &bays)
}

/// Sixteen bays that go on for ever.
pub fn all_move() -> Recipe {
    house(FIRST, &[Bay::Loops(Makes::Nothing); MAX_BAYS])
}

/// Ten bays of which one goes on for ever, and the others come to values that fill the image: 4,096
/// nodes after every second step of the one.
pub fn fullest() -> Recipe {
    let mut bays = [Bay::Done; 10];
    bays[0] = Bay::Loops(Makes::Nothing);
    for (bay, times) in bays[1..].iter_mut().zip([9, 7, 5, 3, 1]) {
        *bay = Bay::Doubles(times);
    }
    house(FIRST, &bays)
}

/// Sixteen bays of which one goes on for ever, and the others make cells while there are names.
pub fn all_names() -> Recipe {
    let mut bays = [Bay::Loops(Makes::Cells); MAX_BAYS];
    bays[0] = Bay::Loops(Makes::Nothing);
    house(FIRST, &bays)
}

/// Nine bays, one of each sort: some go on for ever, some are done, one waits, some come to lack room.
pub fn nine_sorts() -> Recipe {
    let bays = [
        Bay::Loops(Makes::Nothing),
        Bay::Loops(Makes::Cells),
        Bay::Loops(Makes::Threads),
        Bay::Loops(Makes::Handles),
        Bay::Pairs(10),
        Bay::Doubles(9),
        Bay::Holds(5, 25),
        Bay::Steps(9),
        Bay::Waits,
    ];
    house(SECOND, &bays)
}

/// The powers of two that make 252.
const WAITING_THREADS: [usize; 6] = [7, 6, 5, 4, 3, 2];

/// One bay and 256 names: its setting; its thread, which goes on for ever; the loop's function, done;
/// a thread that waits for itself, and 252 threads that wait for that one.
pub fn most_wait() -> Recipe {
    let mut types = Types::of(FIRST);
    let pass = pass(&mut types);
    let thread = types.many(pass, UNIT);
    let start = types.many(pass, UNIT);
    // under the waiting thread's name, the spawner's argument and the new thread's own name
    let needs = lambda(pass, apply(variable(2), unit()));
    let spawned = apply(constant(Constant::Thread, thread), needs);
    let spawner = lambda(pass, apply(identity_unit(pass), spawned));
    let mut rest = looping(&mut types, Makes::Nothing);
    for (depth, power) in WAITING_THREADS.iter().enumerate().rev() {
        let many = doubled(&mut types, *power, variable(depth as u8));
        rest = apply(lambda(pass, rest), apply(many, unit()));
    }
    let all = apply(lambda(start, rest), spawner);
    let awaited = waits_for_itself(&mut types);
    types.recipe(vec![apply(lambda(start, all), awaited)])
}

/// One bay whose thread makes threads that make threads, all in step, until there are 255 that go.
pub fn crowd() -> Recipe {
    let mut types = Types::of(FIRST);
    let pass = pass(&mut types);
    let crowd = Crowd {
        pass,
        thread: types.many(pass, UNIT),
        start: types.many(pass, UNIT),
    };
    let mut term = steps(&mut types, 6);
    for levels in 1..8 {
        let own = crowd.later(term);
        term = crowd.with(crowd.doubling(levels), &own);
    }
    types.recipe(vec![term])
}

/// The types of a crowd.
struct Crowd {
    pass: u8,
    thread: u8,
    start: u8,
}

impl Crowd {
    /// (λ_. e) unit
    fn later(&self, e: Term) -> Term {
        apply(lambda(self.pass, e), unit())
    }

    /// A thread that becomes two, so many times.
    fn doubling(&self, levels: usize) -> Term {
        let same = apply(variable(1), unit());
        (0..levels).fold(unit(), |term, _| self.with(term, &same))
    }

    /// (λg. (λ_. own) (thread (λx. (λ_. g unit) unit))) (λ_. other): a new thread goes on with `other`
    /// when the old one, a step further, goes on with `own`, in which g is variable 1.
    fn with(&self, other: Term, own: &Term) -> Term {
        let made = lambda(self.pass, self.later(apply(variable(2), unit())));
        let thread = apply(constant(Constant::Thread, self.thread), made);
        let both = apply(lambda(self.pass, own.clone()), thread);
        apply(lambda(self.start, both), lambda(self.pass, other))
    }
}
