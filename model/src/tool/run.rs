//! `recipe run`: checks, loads and steps a recipe in either profile, through the proved library where it is
//! built in; in the runner's order, the runner is asked too, which is of the common profile.

pub mod history;
pub mod image_view;
pub mod order;
pub mod report;
pub mod runner;
pub mod shares;

use crate::answers::{Implementation, RanAnswer};
use crate::limits;
use crate::profile::Profile;
use crate::tool::arguments::{Arguments, Form, SEPARATE};
use crate::tool::files;
use crate::tool::judge::{self, Judge, Refusal};
use crate::tool::problem::{message, Outcome, Problem};
use crate::tool::progress::Progress;
use crate::tool::svg;
use history::History;
use image_view::ImageView;
use order::Order;
use report::Columns;
use runner::{Ending, Runner};
use std::ffi::OsString;
use std::io::Write;
use std::path::{Path, PathBuf};

const FORM: Form = Form {
    command: "run",
    files: (1, 1),
    with_value: &["--turns", "--seed", "--order", "--svg"],
    without_value: &["--force", "--progress", SEPARATE],
};

/// The turns of a run that is told no other number.
const TURNS: u64 = 1_000;

/// Who steps.
pub const STEPPER: &str = if cfg!(feature = "library") {
    "the proved library"
} else {
    "the model (this tool is built without the library)"
};

pub fn command(words: &[OsString], out: &mut dyn Write) -> Outcome {
    let given = FORM.read(words)?;
    let turns = FORM.value(&given, "--turns")?.unwrap_or(TURNS);
    let order = order(&given)?;
    let (path, profile) = (&given.files[0], given.profile());
    let recipe = files::read(path)?;
    let loaded = load(profile, path, &recipe)?;
    let picture = given.value("--svg").map(PathBuf::from);
    let force = given.has("--force");
    if let Some(to) = &picture {
        files::refuse_existing(to, force)?;
    }
    let progress = Progress::beside_lines(given.has("--progress"));
    let title = titled(profile, path);
    writeln!(out, "{title}, stepped by {STEPPER}, {}", order.in_words())?;
    let recipe = (profile, &recipe[..]);
    let history = run(out, recipe, loaded, (turns, order), progress)?;
    if let Some(to) = picture {
        let drawn = svg::picture(&title, &history);
        files::write(&to, force, drawn.as_bytes())?;
        writeln!(out, "\n{}: vents and threads over the turns", to.display())?;
    }
    Ok(())
}

fn order(given: &Arguments) -> Result<Order, Problem> {
    let seed = FORM.value(given, "--seed")?;
    match (seed, given.value("--order")) {
        (Some(_), Some(_)) => Err(FORM.wrong("--seed and --order exclude each other")),
        (Some(seed), None) => Ok(Order::random(seed)),
        (None, Some(text)) => Order::list(text)
            .ok_or_else(|| FORM.wrong(&format!("--order takes numbers such as 1,2,1, not {text}"))),
        (None, None) => Ok(Order::Runner(0)),
    }
}

/// The file, and in the separate profile how it is run.
fn titled(profile: Profile, path: &Path) -> String {
    match profile {
        Profile::Common => path.display().to_string(),
        Profile::Separate => format!("{} as separate bays", path.display()),
    }
}

/// The number of bays and the starting image.
fn load(profile: Profile, path: &Path, recipe: &[u8]) -> Result<(usize, Vec<u8>), Problem> {
    let mut image = vec![0; limits::MAX_IMAGE];
    let loaded = Judge.load_in(profile, recipe, &mut image);
    let loaded = loaded.unwrap_or_default();
    if loaded.refusal == 0 {
        image.truncate(loaded.length as usize);
        return Ok((loaded.bays as usize, image));
    }
    let why = Refusal::of(profile, loaded.refusal, recipe, &[]).in_full();
    Err(message(format!("{}: {why}", path.display())))
}

/// The turns, printed one by one; then the end.
fn run(
    out: &mut dyn Write,
    (profile, recipe): (Profile, &[u8]),
    (bays, image): (usize, Vec<u8>),
    (turns, mut order): (u64, Order),
    progress: Progress,
) -> Result<History, Problem> {
    let mut runner = Runner::new_in(profile, &Judge, image);
    let mut history = History::start(bays, &runner.image);
    let start = ImageView(&runner.image).vents(bays);
    let columns = Columns::of(&order);
    writeln!(out, "{}", report::SIGNS)?;
    write!(out, "{}", columns.heading(bays))?;
    write!(out, "{}", columns.loaded(&start))?;
    let (runs, most) = (&mut runner, (turns, &mut order));
    let ending = take_turns(out, runs, &mut history, most, progress)?;
    history.finish();
    let threads = ImageView(&runner.image).threads();
    let threads: Vec<_> = threads.iter().map(|t| (*t, runner.answer(*t))).collect();
    let view = ImageView(&runner.image);
    write!(out, "\n{}", report::ending(history.turns, ending))?;
    write!(out, "{}", report::standings(profile, &threads, view))?;
    let asked = profile == Profile::Common && order.passes_over();
    if let (true, Ok(turns)) = (asked, u16::try_from(turns)) {
        let steps = (ending, history.turns, &runner.image[..]);
        write!(
            out,
            "{}",
            report::one_call(&one_call(recipe, turns, steps)?)
        )?;
    }
    match profile {
        Profile::Common => write!(out, "\n{}", report::vents(view, bays))?,
        Profile::Separate => write!(out, "\n{}", shares::shares_and_vents(view, bays))?,
    }
    Ok(history)
}

/// Turn after turn, until no thread can go or there have been enough.
fn take_turns<I: Implementation>(
    out: &mut dyn Write,
    runner: &mut Runner<I>,
    history: &mut History,
    (turns, order): (u64, &mut Order),
    mut progress: Progress,
) -> Result<Ending, Problem> {
    let (bays, columns) = (history.vents.len(), Columns::of(order));
    for number in 1..=turns {
        let turn = runner.turn(order);
        history.note(&turn, &runner.image);
        let (thread, answer) = match turn.taken {
            Ok(taken) => taken,
            Err(ending) => {
                progress.end(&format!("{} turns", number - 1));
                return Ok(ending);
            }
        };
        let view = ImageView(&runner.image);
        write!(
            out,
            "{}",
            columns.turn((number, thread, answer), view, bays)
        )?;
        progress.say(|| format!("turn {number} of {turns}"));
    }
    progress.end(&format!("{turns} turns"));
    Ok(Ending::Turns)
}

/// The answer of the runner itself, which must be what the steps came to.
fn one_call(
    recipe: &[u8],
    turns: u16,
    (ending, taken, image): (Ending, u64, &[u8]),
) -> Result<RanAnswer, Problem> {
    let mut buffers = [vec![0; limits::MAX_IMAGE], vec![0; limits::MAX_IMAGE]];
    let [first, second] = &mut buffers;
    let answer = Judge.run(recipe, turns, first, second).unwrap_or_default();
    let last = buffers.get(answer.buffer as usize);
    let last = last.and_then(|buffer| buffer.get(..answer.length as usize));
    let told = (answer.refusal, Some(answer.stop), u64::from(answer.turns));
    if told == (0, ending.stop(), taken) && last == Some(image) {
        return Ok(answer);
    }
    let name = judge::NAME;
    let text = format!("the runner and the steps of {name} differ: the runner answers {answer:?}");
    Err(message(text))
}
