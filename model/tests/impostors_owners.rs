//! The comparison finds those that know the owners of names (document 02, T-08) only by half.

mod impostor;

use impostor::*;
use model::answers::{LoadedAnswer, RanAnswer, SteppedAnswer, RULE};
use model::causes;
use model::config::{Component, Configuration};
use model::context::{find, Found, Place};
use model::expression::Expression;
use model::image::{names_of_kind, owners, read_image};
use model::kinds;
use model::limits::{FIRST_HEAD, HEAD_LENGTH, MAX_BAYS};
use model::rules;
use std::rc::Rc;

/// How many recipes an impostor is given at most.
const RECIPES: u64 = 4_000;
/// How many the honest ones are given.
const FEW: u64 = 500;

fn loader_is_found(load: Load) -> bool {
    is_found_among(&with_load(load), RECIPES)
}

fn stepper_is_found(step: Step) -> bool {
    is_found_among(&with_step(step), RECIPES)
}

fn runner_is_found(run: Run) -> bool {
    is_found_among(&with_run(run), RECIPES)
}

/// Where the companion of a name stands.
fn companion(name: usize) -> usize {
    FIRST_HEAD + HEAD_LENGTH * name + 1
}

/// The names that the first bytes tell.
fn names(image: &[u8]) -> usize {
    usize::from(u16::from_le_bytes([image[0], image[1]]))
}

/// Writes that owner for a name, if its companion is one.
fn give(out: &mut [u8], name: usize, owner: u8) {
    if out[companion(name) - 1] != kinds::OPEN_HANDLE {
        out[companion(name)] = owner;
    }
}

/// A load with other companions: of a name, of so many bays.
fn loading(recipe: &[u8], out: &mut [u8], other: fn(usize, usize) -> u8) -> LoadedAnswer {
    let answer = load(recipe, out);
    let bays = answer.bays as usize;
    for name in 0..2 * bays {
        give(out, name, other(name, bays));
    }
    answer
}

/// A step by a rule, about to be told with other owners.
struct Stepping<'s> {
    now: Configuration,
    thread: usize,
    rule: u8,
    out: &'s mut [u8],
}

impl Stepping<'_> {
    /// The owner of a name before the step.
    fn owner(&self, name: u8) -> u8 {
        self.now.owners[usize::from(name)]
    }

    /// The stepping thread's bay.
    fn own(&self) -> u8 {
        self.now.owners[self.thread]
    }

    fn meeting(&self) -> Option<(Rc<Expression>, Rc<Expression>)> {
        match find(self.now.components[self.thread].expression()?) {
            Found::Place(_, Place::Meeting(function, argument)) => Some((function, argument)),
            _ => None,
        }
    }

    /// The open handle that is applied, and its future.
    fn bound(&self) -> Option<(u8, u8)> {
        let (function, _) = self.meeting()?;
        match *function {
            Expression::Name(z) => match self.now.get(z) {
                Component::OpenHandle(y) => Some((z, *y)),
                _ => None,
            },
            _ => None,
        }
    }

    /// The cell that is exchanged.
    fn exchanged(&self) -> Option<u8> {
        let (function, _) = self.meeting()?;
        match (&*function, self.rule) {
            (Expression::Application(_, first), rules::CELL_EXCH) => match **first {
                Expression::Name(y) => Some(y),
                _ => None,
            },
            _ => None,
        }
    }

    /// The value that is applied to, if it is a name.
    fn applied_name(&self) -> Option<u8> {
        let (_, argument) = self.meeting()?;
        match *argument {
            Expression::Name(v) => Some(v),
            _ => None,
        }
    }

    fn give(&mut self, name: u8, owner: u8) {
        give(self.out, name.into(), owner);
    }

    /// That owner for every new name.
    fn give_new(&mut self, owner: u8) {
        for name in self.now.names()..names(self.out) {
            give(self.out, name, owner);
        }
    }
}

/// An honest step but for what is told of owners after a rule.
fn stepping(image: &[u8], thread: u64, out: &mut [u8], change: fn(&mut Stepping)) -> SteppedAnswer {
    let answer = step(image, thread, out);
    if answer.outcome == RULE {
        change(&mut Stepping {
            now: read_image(image).expect("it was stepped"),
            thread: thread as usize,
            rule: answer.number as u8,
            out,
        });
    }
    answer
}

/// A stepper that refuses an image more.
fn refusing(
    image: &[u8],
    thread: u64,
    out: &mut [u8],
    refuses: fn(&[u8]) -> bool,
) -> SteppedAnswer {
    if read_image(image).is_some() && refuses(image) {
        let before = out.to_vec();
        let answer = step(image, thread, out);
        out.copy_from_slice(&before);
        return match answer.number {
            causes::BUFFER if answer.outcome != RULE => answer,
            _ => BROKEN,
        };
    }
    step(image, thread, out)
}

/// A stepper that takes some owners for 0, where they would be refused.
fn letting(image: &[u8], thread: u64, out: &mut [u8], lets: fn(u8, u8) -> bool) -> SteppedAnswer {
    let mut sound = image.to_vec();
    for kind in kinds::THREAD..=kinds::FUTURE {
        for name in names_of_kind(image, kind) {
            let at = companion(name as usize);
            if kind != kinds::OPEN_HANDLE && lets(kind, sound[at]) {
                sound[at] = 0;
            }
        }
    }
    step(&sound, thread, out)
}

/// A runner that tells other owners in the last image.
fn running(
    recipe: &[u8],
    turns: u16,
    outs: [&mut [u8]; 2],
    change: fn(&mut [u8], usize),
) -> RanAnswer {
    let [first, second] = outs;
    let answer = run(recipe, turns, first, second);
    if answer.refusal == 0 {
        let bays = check(recipe).bays as usize;
        let last = if answer.turns % 2 == 0 { first } else { second };
        change(last, bays);
    }
    answer
}

#[test]
fn the_honest_one_passes_and_those_that_change_nothing() {
    assert!(!is_found_among(&HONEST, FEW));
    let same_load: Load = |recipe, out| loading(recipe, out, |name, bays| (name % bays) as u8);
    let same_step: Step = |image, thread, out| {
        stepping(image, thread, out, |step| {
            let own = step.own();
            step.give_new(own);
            for name in 0..step.now.names() {
                give(step.out, name, step.now.owners[name]);
            }
        })
    };
    let none: Step = |image, thread, out| refusing(image, thread, out, |_| false);
    let nothing: Step = |image, thread, out| letting(image, thread, out, |_, _| false);
    let same_run: Run =
        |recipe, turns, first, second| running(recipe, turns, [first, second], |_, _| {});
    assert!(!is_found_among(&with_load(same_load), FEW));
    for step in [same_step, none, nothing] {
        assert!(!is_found_among(&with_step(step), FEW));
    }
    assert!(!is_found_among(&with_run(same_run), FEW));
}

/// "Settings and first threads belong to their bay"
#[test]
fn a_loader_that_gives_names_to_other_bays() {
    let settings_of_0: Load = |recipe, out| {
        loading(recipe, out, |name, bays| match name {
            _ if name < bays => 0,
            _ => (name - bays) as u8,
        })
    };
    let threads_of_0: Load = |recipe, out| {
        loading(recipe, out, |name, bays| match name {
            _ if name < bays => name as u8,
            _ => 0,
        })
    };
    let own_number: Load = |recipe, out| loading(recipe, out, |name, _| name as u8);
    let own_number_below_16: Load =
        |recipe, out| loading(recipe, out, |name, _| (name % MAX_BAYS) as u8);
    let old: Load = |recipe, out| loading(recipe, out, |_, _| 0);
    let from_1: Load = |recipe, out| loading(recipe, out, |name, bays| (name % bays + 1) as u8);
    let backwards: Load =
        |recipe, out| loading(recipe, out, |name, bays| (bays - 1 - name % bays) as u8);
    let pairs: Load = |recipe, out| loading(recipe, out, |name, _| (name / 2) as u8);
    for load in [
        settings_of_0,
        threads_of_0,
        own_number,
        own_number_below_16,
        old,
        from_1,
        backwards,
        pairs,
    ] {
        assert!(loader_is_found(load));
    }
}

/// The last of sixteen bays counts as the first.
#[test]
fn a_loader_that_loses_the_last_bay() {
    let last: Load = |recipe, out| {
        loading(recipe, out, |name, bays| match name % bays {
            15 => 0,
            bay => bay as u8,
        })
    };
    assert!(loader_is_found(last));
}

/// "a new name to the creating thread's bay"
#[test]
fn a_stepper_that_gives_new_names_to_another_bay() {
    let bay_0: Step = |image, thread, out| stepping(image, thread, out, |step| step.give_new(0));
    let values_bay: Step = |image, thread, out| {
        stepping(image, thread, out, |step| {
            if let Some(v) = step.applied_name() {
                let owner = step.owner(v);
                step.give_new(owner);
            }
        })
    };
    let highest_bay: Step = |image, thread, out| {
        stepping(image, thread, out, |step| {
            let highest = step.now.owners.iter().copied().max();
            step.give_new(highest.unwrap_or(0));
        })
    };
    let threads_number: Step = |image, thread, out| {
        stepping(image, thread, out, |step| {
            let number = step.thread as u8;
            step.give_new(number);
        })
    };
    let last_names_bay: Step = |image, thread, out| {
        stepping(image, thread, out, |step| {
            let last = step.now.owners.last().copied();
            step.give_new(last.unwrap_or(0));
        })
    };
    for step in [
        bay_0,
        values_bay,
        highest_bay,
        threads_number,
        last_names_bay,
    ] {
        assert!(stepper_is_found(step));
    }
}

/// The same for one rule alone.
#[test]
fn a_stepper_that_gives_one_kind_of_new_names_to_bay_0() {
    fn only<const AFTER: u8>(image: &[u8], thread: u64, out: &mut [u8]) -> SteppedAnswer {
        stepping(image, thread, out, |step| {
            if step.rule == AFTER {
                step.give_new(0);
            }
        })
    }
    assert!(stepper_is_found(only::<{ rules::THREAD_NEW }>));
    assert!(stepper_is_found(only::<{ rules::HANDLE_NEW }>));
    assert!(stepper_is_found(only::<{ rules::CELL_NEW }>));
}

/// A new open handle holds its future's number, and not its owner.
#[test]
fn a_stepper_that_writes_the_owner_of_a_new_handle() {
    assert!(stepper_is_found(|image, thread, out| {
        stepping(image, thread, out, |step| {
            if step.rule == rules::HANDLE_NEW {
                step.out[companion(step.now.names() + 1)] = step.own();
            }
        })
    }));
}

/// "a future or handle keeps its owner when used": the handle.
#[test]
fn a_stepper_that_gives_a_used_handle_another_owner() {
    let lost: Step = |image, thread, out| {
        stepping(image, thread, out, |step| {
            if let Some((z, _)) = step.bound() {
                step.give(z, 0);
            }
        })
    };
    let number_kept: Step = |image, thread, out| {
        stepping(image, thread, out, |step| {
            if let Some((z, y)) = step.bound() {
                step.give(z, y);
            }
        })
    };
    let binders: Step = |image, thread, out| {
        stepping(image, thread, out, |step| {
            if let Some((z, _)) = step.bound() {
                let own = step.own();
                step.give(z, own);
            }
        })
    };
    for step in [lost, number_kept, binders] {
        assert!(stepper_is_found(step));
    }
}

/// The same: the future.
#[test]
fn a_stepper_that_gives_a_bound_future_another_owner() {
    let lost: Step = |image, thread, out| {
        stepping(image, thread, out, |step| {
            if let Some((_, y)) = step.bound() {
                step.give(y, 0);
            }
        })
    };
    let binders: Step = |image, thread, out| {
        stepping(image, thread, out, |step| {
            if let Some((_, y)) = step.bound() {
                let own = step.own();
                step.give(y, own);
            }
        })
    };
    // by the companion of its handle, which is its own number
    let told_by_its_handle: Step = |image, thread, out| {
        stepping(image, thread, out, |step| {
            if let Some((_, y)) = step.bound() {
                step.give(y, y);
            }
        })
    };
    let values: Step = |image, thread, out| {
        stepping(image, thread, out, |step| {
            if let (Some((_, y)), Some(v)) = (step.bound(), step.applied_name()) {
                let owner = step.owner(v);
                step.give(y, owner);
            }
        })
    };
    for step in [lost, binders, told_by_its_handle, values] {
        assert!(stepper_is_found(step));
    }
}

/// Cells keep their owner when exchanged.
#[test]
fn a_stepper_that_gives_an_exchanged_cell_another_owner() {
    let lost: Step = |image, thread, out| {
        stepping(image, thread, out, |step| {
            if let Some(y) = step.exchanged() {
                step.give(y, 0);
            }
        })
    };
    let exchangers: Step = |image, thread, out| {
        stepping(image, thread, out, |step| {
            if let Some(y) = step.exchanged() {
                let own = step.own();
                step.give(y, own);
            }
        })
    };
    for step in [lost, exchangers] {
        assert!(stepper_is_found(step));
    }
}

#[test]
fn a_stepper_that_loses_the_stepping_threads_owner() {
    fn only<const AFTER: u8>(image: &[u8], thread: u64, out: &mut [u8]) -> SteppedAnswer {
        stepping(image, thread, out, |step| {
            if step.rule == AFTER {
                give(step.out, step.thread, 0);
            }
        })
    }
    assert!(stepper_is_found(only::<{ rules::BETA }>));
    assert!(stepper_is_found(only::<{ rules::THREAD_NEW }>));
    assert!(stepper_is_found(only::<{ rules::FUTURE_DEREF }>));
    assert!(stepper_is_found(only::<{ rules::HANDLE_NEW }>));
    assert!(stepper_is_found(only::<{ rules::HANDLE_BIND }>));
    assert!(stepper_is_found(only::<{ rules::CELL_NEW }>));
    assert!(stepper_is_found(only::<{ rules::CELL_EXCH }>));
    assert!(stepper_is_found(only::<{ rules::CASE_PAIR }>));
    assert!(stepper_is_found(only::<{ rules::CASE_LIST }>));
}

#[test]
fn a_stepper_that_loses_the_owners_of_the_others() {
    let all: Step = |image, thread, out| {
        stepping(image, thread, out, |step| {
            for name in (0..step.now.names()).filter(|name| *name != step.thread) {
                give(step.out, name, 0);
            }
        })
    };
    let used: Step = |image, thread, out| {
        stepping(image, thread, out, |step| {
            for name in names_of_kind(step.out, kinds::USED_HANDLE) {
                give(step.out, name as usize, 0);
            }
        })
    };
    let futures: Step = |image, thread, out| {
        stepping(image, thread, out, |step| {
            for name in names_of_kind(step.out, kinds::FUTURE) {
                give(step.out, name as usize, 0);
            }
        })
    };
    for step in [all, used, futures] {
        assert!(stepper_is_found(step));
    }
}

/// "An image with an owner not below 16 breaks the layout."
#[test]
fn a_stepper_that_lets_an_owner_through() {
    fn at<const KIND: u8, const OWNER: u8>(
        image: &[u8],
        thread: u64,
        out: &mut [u8],
    ) -> SteppedAnswer {
        letting(image, thread, out, |kind, owner| {
            kind == KIND && owner == OWNER
        })
    }
    assert!(stepper_is_found(at::<{ kinds::THREAD }, 16>));
    assert!(stepper_is_found(at::<{ kinds::CELL }, 16>));
    assert!(stepper_is_found(at::<{ kinds::USED_HANDLE }, 16>));
    assert!(stepper_is_found(at::<{ kinds::FUTURE }, 16>));
    assert!(stepper_is_found(at::<{ kinds::THREAD }, 255>));
    assert!(stepper_is_found(at::<{ kinds::CELL }, 255>));
    assert!(stepper_is_found(at::<{ kinds::USED_HANDLE }, 255>));
    assert!(stepper_is_found(at::<{ kinds::FUTURE }, 255>));
    let any: Step = |image, thread, out| letting(image, thread, out, |_, owner| owner >= 16);
    let below_32: Step =
        |image, thread, out| letting(image, thread, out, |_, owner| (16..32).contains(&owner));
    for step in [any, below_32] {
        assert!(stepper_is_found(step));
    }
}

/// Whether a name of that kind has that owner.
fn owns(image: &[u8], kind: u8, owner: u8) -> bool {
    let names = names_of_kind(image, kind);
    let mut companions = names.iter().map(|name| image[companion(*name as usize)]);
    companions.any(|found| found == owner)
}

#[test]
fn a_stepper_that_refuses_the_highest_owner() {
    fn at<const KIND: u8>(image: &[u8], thread: u64, out: &mut [u8]) -> SteppedAnswer {
        refusing(image, thread, out, |image| owns(image, KIND, 15))
    }
    assert!(stepper_is_found(at::<{ kinds::THREAD }>));
    assert!(stepper_is_found(at::<{ kinds::CELL }>));
    assert!(stepper_is_found(at::<{ kinds::USED_HANDLE }>));
    assert!(stepper_is_found(at::<{ kinds::FUTURE }>));
}

/// Kind 3's companion is a name, and no owner.
#[test]
fn a_stepper_that_takes_a_handles_companion_for_an_owner() {
    fn above<const LEAST: u8>(image: &[u8], thread: u64, out: &mut [u8]) -> SteppedAnswer {
        refusing(image, thread, out, |image| {
            (LEAST..=u8::MAX).any(|future| owns(image, kinds::OPEN_HANDLE, future))
        })
    }
    assert!(stepper_is_found(above::<16>));
    assert!(stepper_is_found(above::<17>));
    assert!(stepper_is_found(above::<128>));
    assert!(stepper_is_found(above::<200>));
}

/// An image has no b.
#[test]
fn a_stepper_that_asks_for_owners_below_some_b() {
    fn not_below(image: &[u8], bays: usize) -> bool {
        owners(image)
            .iter()
            .any(|owner| usize::from(*owner) >= bays)
    }
    // the cells before the first name of another kind
    let settings: Step = |image, thread, out| {
        refusing(image, thread, out, |image| {
            let cells = names_of_kind(image, kinds::CELL);
            let settings = (0..).zip(&cells).take_while(|(at, name)| at == *name);
            not_below(image, settings.count())
        })
    };
    // as many as there are names
    let number_of_names: Step =
        |image, thread, out| refusing(image, thread, out, |image| not_below(image, names(image)));
    // the highest owner of a thread
    let highest_thread: Step = |image, thread, out| {
        refusing(image, thread, out, |image| {
            let found = owners(image);
            let threads = names_of_kind(image, kinds::THREAD);
            let highest = threads.iter().map(|name| found[*name as usize]).max();
            not_below(image, highest.map_or(0, |owner| usize::from(owner) + 1))
        })
    };
    // every bay below the highest owner owns something
    let no_gaps: Step = |image, thread, out| {
        refusing(image, thread, out, |image| {
            let found = owners(image);
            let highest = found.iter().copied().max().unwrap_or(0);
            (0..highest).any(|bay| !found.contains(&bay))
        })
    };
    for step in [settings, number_of_names, highest_thread, no_gaps] {
        assert!(stepper_is_found(step));
    }
}

/// The image that was before: companions are 0 but for kind 3.
#[test]
fn a_stepper_of_the_old_image() {
    let asks: Step = |image, thread, out| {
        refusing(image, thread, out, |image| {
            owners(image).iter().any(|owner| *owner != 0)
        })
    };
    let writes: Step = |image, thread, out| {
        stepping(image, thread, out, |step| {
            for name in 0..names(step.out) {
                give(step.out, name, 0);
            }
        })
    };
    for step in [asks, writes] {
        assert!(stepper_is_found(step));
    }
}

#[test]
fn a_runner_that_tells_other_owners() {
    let old: Run = |recipe, turns, first, second| {
        running(recipe, turns, [first, second], |last, _| {
            (0..names(last)).for_each(|name| give(last, name, 0));
        })
    };
    let new_names: Run = |recipe, turns, first, second| {
        running(recipe, turns, [first, second], |last, bays| {
            (2 * bays..names(last)).for_each(|name| give(last, name, 0));
        })
    };
    for run in [old, new_names] {
        assert!(runner_is_found(run));
    }
}
