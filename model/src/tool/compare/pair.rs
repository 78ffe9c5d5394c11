//! Two implementations called with the same input; every answer and every byte of the out buffers
//! compared. Inputs and buffers end where a page begins that traps.

use crate::answers::{Implementation, Model, RanAnswer, RULE};
use crate::comparison::Counts;
use crate::guard::Guarded;
use crate::limits;
use crate::profile::Profile;
use crate::tool::compare::crash;
use crate::tool::compare::words::InWords;
use crate::tool::shared_library::SharedLibrary;

/// Room for the longest recipe or image that the generator makes.
const INPUT_ROOM: usize = 1 << 17;
/// Room for the longest out buffer.
const OUT_ROOM: usize = 2 * limits::MAX_IMAGE;

/// Three answers as texts: A's, B's and the model's, each with its out buffer.
#[derive(Debug, Default)]
pub struct Difference {
    /// What was called.
    pub call: String,
    pub recipe: Option<Vec<u8>>,
    pub image: Option<Vec<u8>>,
    pub answers: [String; 3],
    pub outs: [Vec<u8>; 3],
}

pub struct Pair {
    a: SharedLibrary,
    b: SharedLibrary,
    input: Guarded,
    outs: [Guarded; 2],
    seconds: [Guarded; 2],
    pub counts: Counts,
}

impl Pair {
    pub fn new(a: SharedLibrary, b: SharedLibrary) -> Pair {
        Pair {
            a,
            b,
            input: Guarded::new(INPUT_ROOM),
            outs: [Guarded::new(OUT_ROOM), Guarded::new(OUT_ROOM)],
            seconds: [Guarded::new(OUT_ROOM), Guarded::new(OUT_ROOM)],
            counts: Counts::default(),
        }
    }

    /// The functions that one of the two does not have.
    pub fn missing(&self) -> Vec<String> {
        let mut missing = Vec::new();
        for (name, library) in [("A", &self.a), ("B", &self.b)] {
            let lacking = library.missing().into_iter();
            missing.extend(lacking.map(|function| format!("{name} has no {function}")));
        }
        missing
    }

    pub fn check(&mut self, recipe: &[u8]) -> Result<(), Box<Difference>> {
        let placed = self.input.place(recipe);
        crash::note_call("check", placed, 0, 0);
        let (a, b) = both(|| self.a.check(placed), || self.b.check(placed));
        count(&mut self.counts.verdicts, a.refusal);
        if a == b {
            return Ok(());
        }
        Err(Box::new(Difference {
            call: "check".to_owned(),
            recipe: Some(recipe.to_vec()),
            answers: texts(a, b, Model.check(recipe)),
            ..Difference::default()
        }))
    }

    /// The image, if one was written.
    pub fn load(
        &mut self,
        profile: Profile,
        recipe: &[u8],
        room: usize,
    ) -> Result<Option<Vec<u8>>, Box<Difference>> {
        let placed = self.input.place(recipe);
        let [out_a, out_b] = &mut self.outs;
        let (out_a, out_b) = (patterned(out_a, room), patterned(out_b, room));
        let call = name_of(profile, ["load", "load_separate"]);
        crash::note_call(call, placed, 0, room);
        let found = both(
            || self.a.load_in(profile, placed, out_a),
            || self.b.load_in(profile, placed, out_b),
        );
        let (a, b) = match found {
            (Some(a), Some(b)) => (a, b),
            _ => return Ok(None),
        };
        let loads = match profile {
            Profile::Common => &mut self.counts.loads[..],
            Profile::Separate => &mut self.counts.separate.loads,
        };
        count(loads, a.refusal);
        if a == b && out_a == out_b {
            return Ok(written(out_a, a.length).filter(|_| a.refusal == 0));
        }
        let mut out = pattern(room);
        let model = Model.load_in(profile, recipe, &mut out).unwrap_or_default();
        Err(Box::new(Difference {
            call: format!("{call} into {room} bytes"),
            recipe: Some(recipe.to_vec()),
            image: None,
            answers: texts(a, b, model),
            outs: [out_a.to_vec(), out_b.to_vec(), out],
        }))
    }

    /// The new image, if a rule was answered. `of` is the recipe that the image came from, and the turn.
    pub fn step(
        &mut self,
        (profile, of): (Profile, Option<(&[u8], usize)>),
        image: &[u8],
        thread: u64,
        room: usize,
    ) -> Result<Option<Vec<u8>>, Box<Difference>> {
        let placed = self.input.place(image);
        let [out_a, out_b] = &mut self.outs;
        let (out_a, out_b) = (patterned(out_a, room), patterned(out_b, room));
        let call = name_of(profile, ["step", "step_separate"]);
        crash::note_call(call, placed, thread, room);
        let found = both(
            || self.a.step_in(profile, placed, thread, out_a),
            || self.b.step_in(profile, placed, thread, out_b),
        );
        let (a, b) = match found {
            (Some(a), Some(b)) => (a, b),
            _ => return Ok(None),
        };
        match profile {
            Profile::Common => self.counts.note_step(&a),
            Profile::Separate => self.counts.separate.note_step(image, thread, &a),
        }
        if a == b && out_a == out_b {
            return Ok(written(out_a, a.length).filter(|_| a.outcome == RULE));
        }
        let mut out = pattern(room);
        let model = Model.step_in(profile, image, thread, &mut out);
        let model = model.unwrap_or_default();
        let turn = match of {
            Some((_, turn)) => format!("turn {turn} of a run"),
            None => "an image from outside".to_owned(),
        };
        Err(Box::new(Difference {
            call: format!("{call} of thread {thread} into {room} bytes, {turn}"),
            recipe: of.map(|(recipe, _)| recipe.to_vec()),
            image: Some(image.to_vec()),
            answers: texts((profile, a), (profile, b), (profile, model)),
            outs: [out_a.to_vec(), out_b.to_vec(), out],
        }))
    }
}

impl Pair {
    /// The runner: the same answer and the same last image; on a refusal, all bytes of both buffers.
    pub fn run(
        &mut self,
        recipe: &[u8],
        turns: u16,
        rooms: [usize; 2],
    ) -> Result<(), Box<Difference>> {
        let placed = self.input.place(recipe);
        let [first_a, first_b] = &mut self.outs;
        let [second_a, second_b] = &mut self.seconds;
        let a = [patterned(first_a, rooms[0]), patterned(second_a, rooms[1])];
        let b = [patterned(first_b, rooms[0]), patterned(second_b, rooms[1])];
        crash::note_run(placed, turns, rooms);
        let [first_a, second_a] = a;
        let [first_b, second_b] = b;
        let found = both(
            || self.a.run(placed, turns, first_a, second_a),
            || self.b.run(placed, turns, first_b, second_b),
        );
        let (a, b) = match found {
            (Some(a), Some(b)) => (a, b),
            _ => return Ok(()),
        };
        self.counts.note_run(&a);
        let out_a = told(&a, [first_a, second_a]);
        let out_b = told(&b, [first_b, second_b]);
        if a == b && out_a == out_b {
            return Ok(());
        }
        let mut outs = rooms.map(pattern);
        let [first, second] = &mut outs;
        let model = Model.run(recipe, turns, first, second).unwrap_or_default();
        let out = told(&model, [&outs[0], &outs[1]]);
        Err(Box::new(Difference {
            call: format!(
                "run of {turns} turns between {} and {} bytes",
                rooms[0], rooms[1]
            ),
            recipe: Some(recipe.to_vec()),
            image: None,
            answers: texts(a, b, model),
            outs: [out_a, out_b, out],
        }))
    }
}

/// What a run tells by its buffers: the last image, or after a refusal every byte. The rest is free.
fn told(answer: &RanAnswer, outs: [&[u8]; 2]) -> Vec<u8> {
    if answer.refusal != 0 {
        return outs.concat();
    }
    let out = outs.get(answer.buffer as usize);
    let image = out.and_then(|out| written(out, answer.length));
    image.unwrap_or_default()
}

/// Which of a common and a separate function is meant.
fn name_of(profile: Profile, [common, separate]: [&'static str; 2]) -> &'static str {
    match profile {
        Profile::Common => common,
        Profile::Separate => separate,
    }
}

/// A's answer and B's, with a note of who is asked.
fn both<T>(a: impl FnOnce() -> T, b: impl FnOnce() -> T) -> (T, T) {
    crash::note_library(0);
    let a = a();
    crash::note_library(1);
    let b = b();
    crash::note_end();
    (a, b)
}

fn texts<T: InWords>(a: T, b: T, model: T) -> [String; 3] {
    [a, b, model].map(|answer| answer.in_words())
}

/// The bytes that an answer says were written, if there are so many.
fn written(out: &[u8], length: u64) -> Option<Vec<u8>> {
    let length = usize::try_from(length).ok()?;
    out.get(..length).map(<[u8]>::to_vec)
}

/// A number that no answer should have is counted with the last.
fn count(counts: &mut [u64], number: u32) {
    let last = counts.len() - 1;
    counts[(number as usize).min(last)] += 1;
}

/// Bytes to tell by that nothing beyond was written.
fn pattern(room: usize) -> Vec<u8> {
    (0..room).map(|i| (7 * i + 3) as u8).collect()
}

fn patterned(out: &mut Guarded, room: usize) -> &mut [u8] {
    let out = out.last(room);
    out.copy_from_slice(&pattern(room));
    out
}
