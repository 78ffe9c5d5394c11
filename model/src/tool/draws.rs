//! `recipe draws`: the lines of the test load (document 02, T-06), through the proved library where it is
//! built in; or what the program is given.

use crate::causes;
use crate::profile::Profile;
use crate::test_load::{verdict_line, Input, TestLoad};
use crate::tool::arguments::{Arguments, Form};
use crate::tool::files;
use crate::tool::judge::{Judge, Refusal};
use crate::tool::problem::{message, Outcome, Problem};
use crate::tool::refusals;
use std::ffi::OsString;
use std::fmt::Display;
use std::io::Write;

const FORM: Form = Form {
    command: "draws",
    files: (1, 1),
    with_value: &["--seed", "--count"],
    without_value: &["--input"],
};

pub fn command(words: &[OsString], out: &mut dyn Write) -> Outcome {
    let given = FORM.read(words)?;
    let seed = number(&given, "--seed", u32::MAX)?;
    let count = number(&given, "--count", u16::MAX)?;
    let path = &given.files[0];
    let recipe = &files::read(path)?[..];
    let input = Input {
        seed,
        count,
        recipe,
    };
    if given.has("--input") {
        out.write_all(&input.bytes())?;
        return Ok(());
    }
    let draws = match TestLoad::start(&Judge, &input) {
        Ok(draws) => draws,
        Err(number) => {
            out.write_all(verdict_line(number).as_bytes())?;
            let why = refused(number, recipe);
            return Err(message(format!("{}: {why}", path.display())));
        }
    };
    for drawn in draws {
        writeln!(out, "{drawn}")?;
    }
    Ok(())
}

/// A number that must be told, up to the highest that its bytes hold.
fn number<T>(given: &Arguments, name: &str, most: T) -> Result<T, Problem>
where
    T: TryFrom<u64> + Display,
{
    let told: Option<u64> = FORM.value(given, name)?;
    let told = told.ok_or_else(|| FORM.wrong(&format!("{name} is missing")))?;
    let wrong = |_| FORM.wrong(&format!("{name} takes a number up to {most}, not {told}"));
    T::try_from(told).map_err(wrong)
}

/// Why there is no draw: the recipe, or else the seed, of which the library knows nothing.
fn refused(number: u32, recipe: &[u8]) -> String {
    match number {
        causes::SEED => format!("refused {number}: {}", refusals::in_words(number)),
        _ => Refusal::of(Profile::Common, number, recipe, &[]).in_full(),
    }
}
