//! What a picture of a run needs: when vents changed, and how each thread spent its time.

use crate::tool::run::image_view::{ImageView, Vent};
use crate::tool::run::runner::{Answer, Turn};
use std::collections::BTreeMap;

/// A stretch of turns in which a thread gave the same kind of answer.
#[derive(Debug, Clone, Copy)]
pub struct Span {
    pub from: u64,
    /// The first turn past it: of a thread that moves, past its last rule; else the turn of its
    /// next other answer, or the run's end.
    pub to: u64,
    pub state: State,
}

#[derive(Debug, Clone, Copy, PartialEq, Eq)]
pub enum State {
    Moving,
    Waiting(u32),
    Refused(u32),
    Done,
}

#[derive(Debug, Default)]
pub struct History {
    pub turns: u64,
    /// For each bay the turns after which its vent changed.
    pub vents: Vec<Vec<(u64, Vent)>>,
    pub threads: BTreeMap<u64, Vec<Span>>,
    /// For each name the bay that it belongs to.
    pub owners: Vec<u8>,
    /// Each rule with its turn and thread.
    pub rules: Vec<(u64, u64, u32)>,
}

/// Rules are told one by one in runs up to this length.
pub const RULES_TOLD: u64 = 60;

impl History {
    /// The history of a run that begins with that image.
    pub fn start(bays: usize, image: &[u8]) -> History {
        let mut history = History::default();
        history.note_vents(0, &ImageView(image).vents(bays));
        history.owners = ImageView(image).owners();
        history
    }

    /// The bay that a name belongs to.
    pub fn bay_of(&self, name: u64) -> Option<usize> {
        let name = usize::try_from(name).ok()?;
        self.owners.get(name).copied().map(usize::from)
    }

    /// A name and the bay that it belongs to: 12 of bay 2.
    pub fn whose(&self, name: u32) -> String {
        match self.bay_of(u64::from(name)) {
            Some(bay) => format!("{name} of bay {bay}"),
            None => name.to_string(),
        }
    }

    /// A turn, or that there is none, and the image after it.
    pub fn note(&mut self, turn: &Turn, image: &[u8]) {
        match turn.taken {
            Ok((thread, answer)) => {
                let number = self.turns + 1;
                for (passed, answer) in &turn.passed {
                    self.note_answer(number, *passed, *answer);
                }
                self.note_turn(number, thread, answer, image);
            }
            Err(_) => {
                for (passed, answer) in &turn.passed {
                    self.note_standing(*passed, *answer);
                }
            }
        }
    }

    /// What a thread answers after the last turn: it stood so in that turn already, unless it moved.
    fn note_standing(&mut self, thread: u64, answer: Answer) {
        let spans = self.threads.get(&thread);
        let moved = spans
            .and_then(|spans| spans.last())
            .map_or(0, |last| last.to);
        let from = self.turns + u64::from(moved > self.turns);
        self.note_answer(from, thread, answer);
    }

    /// A turn of that thread, and the image after it.
    fn note_turn(&mut self, turn: u64, thread: u64, answer: Answer, image: &[u8]) {
        self.note_vents(turn, &ImageView(image).vents(self.vents.len()));
        self.note_answer(turn, thread, answer);
        if matches!(answer, Answer::Rule(_)) {
            self.owners = ImageView(image).owners();
        }
    }

    fn note_vents(&mut self, turn: u64, vents: &[Vent]) {
        self.turns = turn;
        self.vents.resize(vents.len(), Vec::new());
        for (changes, vent) in self.vents.iter_mut().zip(vents) {
            if changes.last().map(|(_, last)| last) != Some(vent) {
                changes.push((turn, *vent));
            }
        }
    }

    fn note_answer(&mut self, turn: u64, thread: u64, answer: Answer) {
        let state = match answer {
            Answer::Rule(rule) => {
                if turn <= RULES_TOLD {
                    self.rules.push((turn, thread, rule));
                }
                State::Moving
            }
            Answer::Waiting(name) => State::Waiting(name),
            Answer::Refused(number) => State::Refused(number),
            Answer::Done => State::Done,
        };
        let spans = self.threads.entry(thread).or_default();
        if let Some(last) = spans.last_mut() {
            if last.state == state {
                last.to = turn + 1;
                return;
            }
            if last.state != State::Moving {
                last.to = turn;
            }
        }
        let to = turn + 1;
        spans.push(Span {
            from: turn,
            to,
            state,
        });
    }

    /// A thread that waits or is done at the end does so up to the end.
    pub fn finish(&mut self) {
        for spans in self.threads.values_mut() {
            if let Some(last) = spans.last_mut() {
                if last.state != State::Moving {
                    last.to = self.turns + 1;
                }
            }
        }
    }
}
