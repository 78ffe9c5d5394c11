//! A run, one turn at a time, and when it has come to its end.

use crate::answers::{Implementation, SteppedAnswer, DONE, IDLE, ROOM, RULE, TURNS, WAITING};
use crate::causes;
use crate::limits;
use crate::profile::Profile;
use crate::tool::run::image_view::ImageView;
use crate::tool::run::order::Order;
use std::collections::HashSet;

/// The answer of a turn.
#[derive(Debug, Clone, Copy, PartialEq, Eq)]
pub enum Answer {
    Rule(u32),
    Done,
    /// The awaited name.
    Waiting(u32),
    Refused(u32),
}

impl Answer {
    fn of(stepped: &SteppedAnswer) -> Answer {
        match stepped.outcome {
            DONE => Answer::Done,
            RULE => Answer::Rule(stepped.number),
            WAITING => Answer::Waiting(stepped.number),
            _ => Answer::Refused(stepped.number),
        }
    }
}

/// Why a run ends.
#[derive(Debug, Clone, Copy, PartialEq, Eq)]
pub enum Ending {
    /// All turns are taken.
    Turns,
    /// No thread can go: each is done or waits.
    Idle,
    /// No thread can go, and one lacks room.
    Room,
    /// Another thread than those of the order could go.
    NoThreadOfTheOrder,
}

impl Ending {
    /// The end of a run in which every thread answers so, and none goes.
    fn of(answers: impl IntoIterator<Item = Answer>) -> Ending {
        let mut answers = answers.into_iter();
        if answers.any(|answer| answer == Answer::Refused(causes::ROOM)) {
            Ending::Room
        } else {
            Ending::Idle
        }
    }

    /// The number that the runner has for it, if it has one.
    pub fn stop(self) -> Option<u32> {
        match self {
            Ending::Turns => Some(TURNS),
            Ending::Idle => Some(IDLE),
            Ending::Room => Some(ROOM),
            Ending::NoThreadOfTheOrder => None,
        }
    }
}

/// A turn, or why there is none.
pub struct Turn {
    /// The threads that were passed over before it, and what they answered.
    pub passed: Vec<(u64, Answer)>,
    pub taken: Result<(u64, Answer), Ending>,
}

pub struct Runner<'a, I: Implementation> {
    implementation: &'a I,
    profile: Profile,
    pub image: Vec<u8>,
    out: Vec<u8>,
    /// Threads that answered done, which they will do for ever.
    finished: HashSet<u64>,
    /// Threads that did not move since the last rule.
    idle: HashSet<u64>,
}

impl<'a, I: Implementation> Runner<'a, I> {
    /// A run that goes on from that image in the common profile.
    pub fn new(implementation: &'a I, image: Vec<u8>) -> Runner<'a, I> {
        Runner::new_in(Profile::Common, implementation, image)
    }

    /// The same in that profile.
    pub fn new_in(profile: Profile, implementation: &'a I, image: Vec<u8>) -> Runner<'a, I> {
        Runner {
            implementation,
            profile,
            image,
            out: vec![0; limits::MAX_IMAGE],
            finished: HashSet::new(),
            idle: HashSet::new(),
        }
    }

    /// The threads that have not answered done.
    fn open(&self) -> Vec<u64> {
        let mut threads = ImageView(&self.image).threads();
        threads.retain(|thread| !self.finished.contains(thread));
        threads
    }

    /// The next turn by that order.
    pub fn turn(&mut self, order: &mut Order) -> Turn {
        let open = self.open();
        let mut passed = Vec::new();
        if let Some(ending) = self.ending(order, &open) {
            let taken = Err(ending);
            return Turn { passed, taken };
        }
        for thread in order.next(&open) {
            let answer = self.step(thread);
            if answer.is_idle() && order.passes_over() {
                passed.push((thread, answer));
                continue;
            }
            order.note(thread);
            let taken = Ok((thread, answer));
            return Turn { passed, taken };
        }
        let taken = Err(Ending::of(passed.iter().map(|(_, answer)| *answer)));
        Turn { passed, taken }
    }

    /// Why there is no next turn, if every thread that the order chooses has answered that it cannot
    /// go; for nothing changes until a rule does it.
    fn ending(&self, order: &Order, open: &[u64]) -> Option<Ending> {
        let mut chosen = order.chosen(open).iter();
        if order.passes_over() || !chosen.all(|thread| self.idle.contains(thread)) {
            return None;
        }
        let answers: Vec<Answer> = open.iter().map(|thread| self.answer(*thread)).collect();
        Some(if answers.iter().all(|answer| answer.is_idle()) {
            Ending::of(answers)
        } else {
            Ending::NoThreadOfTheOrder
        })
    }

    fn step(&mut self, thread: u64) -> Answer {
        let implementation = self.implementation;
        let stepped = implementation.step_in(self.profile, &self.image, thread, &mut self.out);
        let stepped = stepped.unwrap_or_default();
        let answer = Answer::of(&stepped);
        match answer {
            Answer::Rule(_) => {
                let length = usize::try_from(stepped.length).unwrap_or(0);
                self.image = self.out.get(..length).unwrap_or(&[]).to_vec();
                self.idle.clear();
            }
            Answer::Done => {
                self.finished.insert(thread);
                self.idle.insert(thread);
            }
            Answer::Waiting(_) | Answer::Refused(_) => {
                self.idle.insert(thread);
            }
        }
        answer
    }

    /// What a thread would answer now.
    pub fn answer(&self, thread: u64) -> Answer {
        let mut out = vec![0; limits::MAX_IMAGE];
        let implementation = self.implementation;
        let stepped = implementation.step_in(self.profile, &self.image, thread, &mut out);
        Answer::of(&stepped.unwrap_or_default())
    }
}

impl Answer {
    fn is_idle(self) -> bool {
        !matches!(self, Answer::Rule(_))
    }
}
