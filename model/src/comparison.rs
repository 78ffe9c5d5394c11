//! An implementation compared with the model: every answer and every byte of the out buffer, on
//! inputs that end where a page begins that traps.

mod runner;
mod separate;

use crate::answers::{
    Implementation, Model, RanAnswer, SteppedAnswer, VerdictAnswer, DONE, RULE, WAITING,
};
use crate::draw::Draw;
use crate::format::hexadecimal;
use crate::generate::instances::constants_at_every_type;
use crate::generate::{houses, images, recipes};
use crate::guard::Guarded;
use crate::limits;
use crate::profile::Profile;
use crate::verdict::{derived_types, read_recipe};
use separate::SeparateCounts;
use std::fmt;

/// Room for the longest file or image that the generator makes.
const INPUT_ROOM: usize = 1 << 17;
/// Room for the longest out buffer.
const OUT_ROOM: usize = 2 * limits::MAX_IMAGE;
/// After how many recipes every constant is tried at every type of another table.
const TABLE_EVERY: u64 = 5_000;
/// After how many recipes the runner gets one of them, and after how many a house.
const RUNNER_EVERY: u64 = 4;
const HOUSE_EVERY: u64 = 50;
/// After how many recipes the separate profile gets one of its own.
const SEPARATE_EVERY: u64 = 4;
/// The most steps of one run.
const RUN_STEPS: usize = 40;

/// How often each answer came.
#[derive(Debug, Clone, Default, PartialEq, Eq)]
pub struct Counts {
    pub verdicts: [u64; 20],
    pub loads: [u64; 20],
    pub rules: [u64; 10],
    pub done: u64,
    pub waiting: u64,
    pub step_refusals: [u64; 18],
    pub runs: [u64; 20],
    /// Of the runs that were not refused, by their stops.
    pub stops: [u64; 3],
    pub turns: u64,
    pub separate: SeparateCounts,
}

impl Counts {
    /// How many recipes were checked.
    pub fn recipes(&self) -> u64 {
        self.verdicts.iter().sum()
    }

    /// A number that no answer should have is counted with the highest.
    pub fn note_step(&mut self, answer: &SteppedAnswer) {
        let number = answer.number as usize;
        match answer.outcome {
            DONE => self.done += 1,
            RULE => self.rules[number.min(9)] += 1,
            WAITING => self.waiting += 1,
            _ => self.step_refusals[number.min(17)] += 1,
        }
    }

    /// The same of a run.
    pub fn note_run(&mut self, answer: &RanAnswer) {
        self.runs[(answer.refusal as usize).min(19)] += 1;
        if answer.refusal == 0 {
            self.stops[(answer.stop as usize).min(2)] += 1;
            self.turns += u64::from(answer.turns);
        }
    }
}

impl fmt::Display for Counts {
    fn fmt(&self, f: &mut fmt::Formatter<'_>) -> fmt::Result {
        writeln!(f, "check: {}", listed(&self.verdicts, "verdict"))?;
        writeln!(f, "load:  {}", listed(&self.loads, "verdict"))?;
        writeln!(f, "step:  {}", listed(&self.rules, "rule"))?;
        writeln!(f, "step:  {}", listed(&self.step_refusals, "refused"))?;
        writeln!(f, "step:  done: {}, waiting: {}", self.done, self.waiting)?;
        writeln!(f, "run:   {}", listed(&self.runs, "verdict"))?;
        let [turns, idle, room] = self.stops;
        writeln!(
            f,
            "run:   all turns: {turns}, idle: {idle}, room: {room}; {} turns in all",
            self.turns
        )?;
        write!(f, "{}", self.separate)
    }
}

fn listed(counts: &[u64], word: &str) -> String {
    if counts.iter().all(|count| *count == 0) {
        return "not compared".to_owned();
    }
    let came = counts.iter().enumerate().filter(|(_, count)| **count > 0);
    let texts: Vec<String> = came
        .map(|(n, count)| format!("{word} {n}: {count}"))
        .collect();
    texts.join(", ")
}

/// The first difference, in full.
#[derive(Debug)]
pub struct Difference(pub String);

/// The state of a comparison.
pub struct Comparison<'a, I: Implementation> {
    implementation: &'a I,
    input: Guarded,
    outs: [Guarded; 2],
    expected_out: Vec<u8>,
    pattern: Vec<u8>,
    pub counts: Counts,
}

impl<'a, I: Implementation> Comparison<'a, I> {
    pub fn new(implementation: &'a I) -> Comparison<'a, I> {
        Comparison {
            implementation,
            input: Guarded::new(INPUT_ROOM),
            outs: [Guarded::new(OUT_ROOM), Guarded::new(OUT_ROOM)],
            expected_out: Vec::new(),
            pattern: (0..OUT_ROOM + 256).map(|i| (7 * i) as u8).collect(),
            counts: Counts::default(),
        }
    }

    /// That many recipes: each checked and loaded, every fourth accepted one run; one image from
    /// outside for every second recipe; and now and then every constant at every type of a table. The
    /// runner gets every fourth recipe, and houses beside them. The separate profile gets all of it too,
    /// and recipes and images of its own. The recipes are the same with and without a stepper, a runner
    /// and that profile.
    pub fn compare(&mut self, seed: u64, count: u64) -> Result<(), Difference> {
        let mut for_recipes = Draw::new(seed);
        let mut draw = Draw::new(!seed);
        let mut for_runner = Draw::new(seed.rotate_left(32));
        let mut for_separate = Draw::new(!seed.rotate_left(32));
        let steps = self.implementation.step(&[], 0, &mut []).is_some();
        for number in 0..count {
            if number % TABLE_EVERY == 0 {
                self.compare_constants(&mut for_recipes)?;
            }
            let file = recipes::file(&mut for_recipes);
            let answer = self.compare_check(&file)?;
            self.compare_load(Profile::Common, &mut draw, &file)?;
            self.compare_load(Profile::Separate, &mut for_separate, &file)?;
            if steps && answer.refusal == 0 && number % 4 == 0 {
                self.compare_run(Profile::Common, &mut draw, &file)?;
                self.compare_run(Profile::Separate, &mut for_separate, &file)?;
            }
            if steps && number % 2 == 0 {
                self.compare_image(&mut draw, &mut for_separate)?;
            }
            if number % SEPARATE_EVERY == 1 {
                self.compare_separate(&mut for_separate)?;
            }
            if number % RUNNER_EVERY == 1 {
                let turns = houses::any_turns(&mut for_runner);
                self.compare_runs(&mut for_runner, &file, turns)?;
            }
            if number % HOUSE_EVERY == 2 {
                let house = houses::house(&mut for_runner).write();
                let turns = houses::turns(&mut for_runner);
                self.compare_runs(&mut for_runner, &house, turns)?;
            }
        }
        Ok(())
    }

    /// Check: every constant at every type of a table.
    fn compare_constants(&mut self, draw: &mut Draw) -> Result<(), Difference> {
        for file in constants_at_every_type(draw) {
            self.compare_check(&file)?;
        }
        Ok(())
    }

    /// Check: the same answer, and the model's two ways to it agree.
    pub fn compare_check(&mut self, file: &[u8]) -> Result<VerdictAnswer, Difference> {
        let expected = Model.check(file);
        let found = self.implementation.check(self.input.place(file));
        self.counts.verdicts[expected.refusal as usize] += 1;
        if found != expected {
            let text = format!(
                "check\nrecipe {}\nmodel {expected:?}\nfound {found:?}",
                hexadecimal(file)
            );
            return Err(Difference(text));
        }
        derivations_agree(file, &expected)?;
        Ok(expected)
    }

    /// Load: the same answer and the same bytes.
    pub fn compare_load(
        &mut self,
        profile: Profile,
        draw: &mut Draw,
        file: &[u8],
    ) -> Result<(), Difference> {
        let length = images::out_length(draw);
        let pattern = pattern(&self.pattern, draw, length);
        let out = self.outs[0].last(length);
        out.copy_from_slice(pattern);
        let placed = self.input.place(file);
        let found = match self.implementation.load_in(profile, placed, out) {
            Some(found) => found,
            None => return Ok(()),
        };
        self.expected_out.clear();
        self.expected_out.extend_from_slice(pattern);
        let expected_out = &mut self.expected_out;
        let expected = Model.load_in(profile, file, expected_out);
        let expected = expected.unwrap_or_default();
        let loads = match profile {
            Profile::Common => &mut self.counts.loads[..],
            Profile::Separate => &mut self.counts.separate.loads,
        };
        loads[expected.refusal as usize] += 1;
        if found == expected && out == expected_out.as_slice() {
            return Ok(());
        }
        Err(Difference(format!(
            "{profile:?} load into {length} bytes\nrecipe {}\nmodel {expected:?}\nfound {found:?}\nmodel out {}\nfound out {}",
            hexadecimal(file),
            hexadecimal(expected_out),
            hexadecimal(out)
        )))
    }

    /// A run of a recipe that is not refused: random threads and buffers, refused and idle steps among
    /// them.
    pub fn compare_run(
        &mut self,
        profile: Profile,
        draw: &mut Draw,
        file: &[u8],
    ) -> Result<(), Difference> {
        let mut out = vec![0; limits::MAX_IMAGE];
        let loaded = Model.load_in(profile, file, &mut out).unwrap_or_default();
        if loaded.refusal != 0 {
            return Ok(());
        }
        let mut image = out[..loaded.length as usize].to_vec();
        let mut thread = images::thread_number(draw, &image);
        for _ in 0..draw.between(1, RUN_STEPS) {
            let next = self.compare_step(profile, draw, &image, thread)?;
            let moved = next.is_some();
            image = next.unwrap_or(image);
            if !moved && draw.one_in(6) {
                break;
            }
            if !moved || draw.one_in(3) {
                thread = images::thread_number(draw, &image);
            }
        }
        Ok(())
    }

    /// A slice from outside, each of its first threads stepped, and a number that is no thread.
    pub fn compare_image(
        &mut self,
        draw: &mut Draw,
        for_separate: &mut Draw,
    ) -> Result<(), Difference> {
        let image = images::image(draw);
        for _ in 0..draw.between(1, 4) {
            let thread = images::thread_number(draw, &image);
            self.compare_step(Profile::Common, draw, &image, thread)?;
            self.compare_step(Profile::Separate, for_separate, &image, thread)?;
        }
        Ok(())
    }

    /// Step: the same answer and the same bytes. The new image, if a rule was answered.
    pub fn compare_step(
        &mut self,
        profile: Profile,
        draw: &mut Draw,
        image: &[u8],
        thread: u64,
    ) -> Result<Option<Vec<u8>>, Difference> {
        let length = images::out_length(draw);
        let pattern = pattern(&self.pattern, draw, length);
        let out = self.outs[0].last(length);
        out.copy_from_slice(pattern);
        let placed = self.input.place(image);
        let found = match self.implementation.step_in(profile, placed, thread, out) {
            Some(found) => found,
            None => return Ok(None),
        };
        self.expected_out.clear();
        self.expected_out.extend_from_slice(pattern);
        let expected_out = &mut self.expected_out;
        let expected = Model.step_in(profile, image, thread, expected_out);
        let expected = expected.unwrap_or_default();
        match profile {
            Profile::Common => self.counts.note_step(&expected),
            Profile::Separate => self.counts.separate.note_step(image, thread, &expected),
        }
        if found == expected && out == expected_out.as_slice() {
            let written = expected.outcome == RULE;
            return Ok(written.then(|| expected_out[..expected.length as usize].to_vec()));
        }
        Err(Difference(format!(
            "{profile:?} step of {thread} into {length} bytes\nimage {}\nmodel {expected:?}\nfound {found:?}\nmodel out {}\nfound out {}",
            hexadecimal(image),
            hexadecimal(expected_out),
            hexadecimal(out)
        )))
    }
}

/// Bytes to tell by that nothing beyond was written.
fn pattern<'p>(bytes: &'p [u8], draw: &mut Draw, length: usize) -> &'p [u8] {
    let first = usize::from(draw.byte());
    &bytes[first..first + length]
}

/// Accepted exactly when every term has a derivation by Figs. 9 and 10 with a type of multiplicity
/// many, and every bay a starting num.
fn derivations_agree(file: &[u8], answer: &VerdictAnswer) -> Result<(), Difference> {
    let recipe = match read_recipe(file) {
        Ok(recipe) => recipe,
        Err(_) => return Ok(()),
    };
    let derived = derived_types(&recipe.table, &recipe.terms);
    let derived = derived.filter(|_| recipe.starts.is_some());
    let numbers: Option<Vec<u8>> =
        derived.and_then(|types| types.iter().map(|t| recipe.table.number_of(t)).collect());
    let accepted = answer.types[..answer.bays as usize].to_vec();
    let agree = match numbers {
        Some(numbers) => answer.refusal == 0 && numbers == accepted,
        None => answer.refusal != 0,
    };
    if agree {
        return Ok(());
    }
    let text = format!(
        "the model's two ways\nrecipe {}\n{answer:?}",
        hexadecimal(file)
    );
    Err(Difference(text))
}
