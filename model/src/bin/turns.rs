//! How many turns a second the library's runner takes, against the plain stepper driven by a plain
//! loop, on the same houses in one run.

use model::answers::{Implementation, Plain};
use model::ffi::Library;
use model::format::Recipe;
use model::houses;
use model::limits;
use model::timing::{fastest, opaque, Work};
use std::time::Duration;

/// How often each work is measured, and how long at least.
const ROUNDS: usize = 7;
const LEAST: Duration = Duration::from_millis(50);

/// A house, the turns until it is as it says, and the turns that are measured beyond these.
struct House {
    name: &'static str,
    recipe: Recipe,
    before: u16,
    measured: u16,
}

fn all() -> [House; 3] {
    let house = |name, recipe, before, measured| House {
        name,
        recipe,
        before,
        measured,
    };
    [
        house(
            "sixteen bays, one thread moves",
            houses::one_moves(),
            100,
            20_000,
        ),
        house("sixteen bays, all move", houses::all_move(), 100, 20_000),
        house(
            "256 names, 253 threads wait, one moves",
            houses::most_wait(),
            1_500,
            300,
        ),
    ]
}

/// A call of the runner, with so many turns.
fn run<'a>(implementation: &'a dyn Implementation, file: &'a [u8], turns: u16) -> Work<'a> {
    let mut buffers = [vec![0; limits::MAX_IMAGE], vec![0; limits::MAX_IMAGE]];
    Box::new(move || {
        let [first, second] = &mut buffers;
        let ran = opaque(implementation.run(opaque(file), turns, first, second));
        assert_eq!(ran.map(|ran| ran.turns), Some(u32::from(turns)));
        1
    })
}

/// Turns a second, without what it takes to check, to load and to take the first turns.
fn turns_a_second(house: &House, short: f64, long: f64) -> f64 {
    f64::from(house.measured) * 1e9 / (long - short)
}

fn main() {
    println!("turns a second: library, plain; library / plain; house");
    for house in all() {
        let file = house.recipe.write();
        let turns = [house.before, house.before + house.measured];
        let mut works = [
            run(&Library, &file, turns[0]),
            run(&Library, &file, turns[1]),
            run(&Plain, &file, turns[0]),
            run(&Plain, &file, turns[1]),
        ];
        let times = fastest(ROUNDS, LEAST, &mut works);
        let library = turns_a_second(&house, times[0], times[1]);
        let plain = turns_a_second(&house, times[2], times[3]);
        let (ratio, name) = (library / plain, house.name);
        println!("{library:>10.0} {plain:>10.0} {ratio:>6.2}  {name}");
    }
}
