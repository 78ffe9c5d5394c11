//! Document 02, T-06, "A repeatable test load": a seed, a number of draws and a recipe; each draw picks
//! a thread, which is stepped.

use crate::answers::{Implementation, SteppedAnswer, DONE, RULE, WAITING};
use crate::causes;
use crate::image::names_of_kind;
use crate::kinds::THREAD;
use crate::limits;
use std::fmt;

/// "The state is 32 bits; a draw replaces it by itself xor its left shift by 13, then xor its right
/// shift by 17, then xor its left shift by 5, bits beyond 32 dropped"
pub fn drawn_from(state: u32) -> u32 {
    let state = state ^ (state << 13);
    let state = state ^ (state >> 17);
    state ^ (state << 5)
}

/// "Each draw modulo the present number of threads picks a thread, counted in ascending number from 0"
pub fn picked(draw: u32, threads: &[u64]) -> u64 {
    threads[draw as usize % threads.len()]
}

/// The bytes before the recipe: "the seed in four bytes and the number of draws in two"
const FRONT: usize = 6;

/// What the program is given.
#[derive(Debug, Clone, Copy, PartialEq, Eq)]
pub struct Input<'i> {
    pub seed: u32,
    /// The number of draws as it was told.
    pub count: u16,
    pub recipe: &'i [u8],
}

impl<'i> Input<'i> {
    /// "Standard input gives the seed in four bytes and the number of draws in two, little-endian, then
    /// the recipe; absent bytes of these six count as 0"
    pub fn read(bytes: &'i [u8]) -> Input<'i> {
        let (present, recipe) = bytes.split_at(bytes.len().min(FRONT));
        let byte = |at: usize| present.get(at).copied().unwrap_or(0);
        Input {
            seed: u32::from_le_bytes([byte(0), byte(1), byte(2), byte(3)]),
            count: u16::from_le_bytes([byte(4), byte(5)]),
            recipe,
        }
    }

    /// The bytes that are read so.
    pub fn bytes(&self) -> Vec<u8> {
        let (seed, count) = (self.seed.to_le_bytes(), self.count.to_le_bytes());
        [&seed[..], &count, self.recipe].concat()
    }

    /// "a number above 10,000 as 10,000"
    fn draws(&self) -> u16 {
        self.count.min(limits::MAX_DRAWS)
    }
}

/// A draw: the thread that it picked, and what the thread's step answered.
#[derive(Debug, Clone, Copy, PartialEq, Eq)]
pub struct Drawn {
    pub thread: u64,
    pub answer: SteppedAnswer,
}

impl fmt::Display for Drawn {
    /// "the thread's name, then the word step, done, waiting or refused, then the rule, 0, the awaited
    /// name or the refusal's number, in decimal with single spaces"
    fn fmt(&self, f: &mut fmt::Formatter<'_>) -> fmt::Result {
        let (word, number) = match self.answer.outcome {
            RULE => ("step", self.answer.number),
            DONE => ("done", 0),
            WAITING => ("waiting", self.answer.number),
            _ => ("refused", self.answer.number),
        };
        write!(f, "{} {word} {number}", self.thread)
    }
}

/// A test load under way, loaded and stepped by that implementation: its draws, one after the other.
pub struct TestLoad<'a, I: Implementation> {
    implementation: &'a I,
    state: u32,
    left: u16,
    image: Vec<u8>,
    out: Vec<u8>,
}

impl<'a, I: Implementation> TestLoad<'a, I> {
    /// Before the first draw; or the refusal: "It refuses a seed of zero with 18, tried after the recipe
    /// is accepted."
    pub fn start(implementation: &'a I, input: &Input) -> Result<TestLoad<'a, I>, u32> {
        let mut image = vec![0; limits::MAX_IMAGE];
        let out = image.clone();
        let loaded = implementation.load(input.recipe, &mut image);
        let loaded = loaded.expect("it has a loader");
        match (loaded.refusal, input.seed) {
            (0, 0) => return Err(causes::SEED),
            (0, _) => image.truncate(loaded.length as usize),
            (number, _) => return Err(number),
        }
        Ok(TestLoad {
            implementation,
            state: input.seed,
            left: input.draws(),
            image,
            out,
        })
    }

    /// The present image.
    pub fn image(&self) -> &[u8] {
        &self.image
    }

    /// The thread is stepped. "A refused or idle draw keeps the image."
    fn step(&mut self, thread: u64) -> Drawn {
        let answer = self.implementation.step(&self.image, thread, &mut self.out);
        let answer = answer.expect("it has a stepper");
        if answer.outcome == RULE {
            self.image.clear();
            let written = &self.out[..answer.length as usize];
            self.image.extend_from_slice(written);
        }
        Drawn { thread, answer }
    }
}

impl<I: Implementation> Iterator for TestLoad<'_, I> {
    type Item = Drawn;

    fn next(&mut self) -> Option<Drawn> {
        self.left = self.left.checked_sub(1)?;
        self.state = drawn_from(self.state);
        let threads = names_of_kind(&self.image, THREAD);
        Some(self.step(picked(self.state, &threads)))
    }
}

/// The line of a refusal.
pub fn verdict_line(number: u32) -> String {
    format!("verdict {number}\n")
}

/// What the program prints for what standard input gives: "A refusal prints only its verdict line.
/// Otherwise the program prints one line for each draw and no other"
pub fn printed<I: Implementation>(implementation: &I, bytes: &[u8]) -> String {
    match TestLoad::start(implementation, &Input::read(bytes)) {
        Ok(draws) => draws.map(|drawn| format!("{drawn}\n")).collect(),
        Err(number) => verdict_line(number),
    }
}
