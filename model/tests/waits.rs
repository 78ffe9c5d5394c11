//! Whose names are awaited in runs of accepted recipes, as docs/HOST.md and docs/RECIPES.md say: a thread
//! waits for names of its own bay, and a vent may hold another bay's.

use model::answers::{Implementation, Model};
use model::draw::Draw;
use model::examples::file_of;
use model::format::hexadecimal;
use model::generate::{bays, recipes};
use model::image::{names_of_kind, owners};
use model::kinds::THREAD;
use model::limits;
use model::run::Run;
use model::step::Outcome;
use model::tool::run::image_view::{ImageView, Vent};

/// How often it was seen, in houses of several bays.
#[derive(Debug, Default)]
struct Seen {
    waits: usize,
    /// Settings that hold another bay's name.
    held: usize,
}

fn watch(draw: &mut Draw, file: &[u8], steps: usize, seen: &mut Seen) {
    let bays = Model.check(file).bays as usize;
    let mut run = match Run::start(file) {
        Some(run) if bays > 1 => run,
        _ => return,
    };
    let mut out = vec![0; limits::MAX_IMAGE];
    for _ in 0..steps {
        let thread = draw.pick(&names_of_kind(&run.image, THREAD));
        let owners = owners(&run.image);
        let answer = run.step(thread, &mut out).expect("a run keeps the claim");
        if let Outcome::Waiting(name) = answer {
            let [own, other] = [thread as usize, usize::from(name)].map(|name| owners[name]);
            let file = hexadecimal(file);
            assert_eq!(own, other, "thread {thread}, name {name}: {file}");
            seen.waits += 1;
        }
    }
    let owners = owners(&run.image);
    let vents = ImageView(&run.image).vents(bays).into_iter().enumerate();
    let held = vents.filter(|(bay, vent)| match vent {
        Vent::Named(name, _) => usize::from(owners[usize::from(*name)]) != *bay,
        _ => false,
    });
    seen.held += held.count();
}

#[test]
fn a_thread_waits_for_names_of_its_own_bay() {
    let mut draw = Draw::new(8);
    let mut seen = Seen::default();
    for _ in 0..2_000 {
        for make in [recipes::well_typed, bays::recipe] {
            let file = make(&mut draw).write();
            watch(&mut draw, &file, 60, &mut seen);
        }
    }
    println!("{seen:?}");
    assert!(seen.waits > 100 && seen.held > 20, "{seen:?}");
}

#[test]
fn a_vent_awaits_another_bays_job() {
    let mut seen = Seen::default();
    watch(&mut Draw::new(1), &file_of("whose-job"), 400, &mut seen);
    assert!(seen.waits > 10 && seen.held == 1, "{seen:?}");
}
