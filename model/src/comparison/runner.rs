//! The runner compared with the model's, and with the load and the steps of its own library.

use crate::answers::{Implementation, Model, RanAnswer, IDLE, REFUSED, ROOM, RULE, TURNS};
use crate::causes;
use crate::comparison::{pattern, Comparison, Difference};
use crate::draw::Draw;
use crate::format::hexadecimal;
use crate::generate::images;
use crate::limits;

impl<I: Implementation> Comparison<'_, I> {
    /// The runner with that many turns; and, one time of two that it stops before, with as many as it
    /// took.
    pub fn compare_runs(
        &mut self,
        draw: &mut Draw,
        file: &[u8],
        turns: u16,
    ) -> Result<(), Difference> {
        let answer = self.compare_runner(draw, file, turns)?;
        if answer.stop != TURNS && draw.one_in(2) {
            self.compare_runner(draw, file, answer.turns as u16)?;
        }
        Ok(())
    }

    /// The runner on one recipe, between buffers of any length.
    pub fn compare_runner(
        &mut self,
        draw: &mut Draw,
        file: &[u8],
        turns: u16,
    ) -> Result<RanAnswer, Difference> {
        let lengths = [images::out_length(draw), images::out_length(draw)];
        let before = lengths.map(|length| pattern(&self.pattern, draw, length).to_vec());
        let [first, second] = &mut self.outs;
        let (first, second) = (first.last(lengths[0]), second.last(lengths[1]));
        first.copy_from_slice(&before[0]);
        second.copy_from_slice(&before[1]);
        let placed = self.input.place(file);
        let found = match self.implementation.run(placed, turns, first, second) {
            Some(found) => found,
            None => return Ok(RanAnswer::default()),
        };
        let mut model_outs = before.clone();
        let [model_first, model_second] = &mut model_outs;
        let expected = Model.run(file, turns, model_first, model_second);
        let expected = expected.unwrap_or_default();
        self.counts.note_run(&expected);
        let run = Run {
            file,
            turns,
            before: [&before[0], &before[1]],
            found: (found, [first, second]),
            expected: (expected, [&model_outs[0], &model_outs[1]]),
        };
        match run.fault(self.implementation) {
            Some(fault) => Err(run.told(&fault)),
            None => Ok(found),
        }
    }
}

/// Two buffers.
type Buffers<'r> = [&'r [u8]; 2];

/// A run: what it was given, what was found, and what the model has.
struct Run<'r> {
    file: &'r [u8],
    turns: u16,
    before: Buffers<'r>,
    found: (RanAnswer, Buffers<'r>),
    expected: (RanAnswer, Buffers<'r>),
}

impl Run<'_> {
    /// What is wrong with it. The answer is the model's. On a refusal both buffers are as they were;
    /// else the last image is the model's, and what the library's own steps come to. What else the
    /// buffers hold is free.
    fn fault(&self, implementation: &dyn Implementation) -> Option<String> {
        let (answer, outs) = self.found;
        if answer != self.expected.0 {
            return Some("another answer".to_owned());
        }
        if answer.refusal != 0 {
            let kept = outs == self.before;
            return (!kept).then(|| "a refusal that writes".to_owned());
        }
        let last = last_image(self.found);
        if last != last_image(self.expected) {
            return Some("another image".to_owned());
        }
        let own = chain(implementation, self.file, self.turns)?;
        let agree = own == Chain::of(&answer, last);
        (!agree).then(|| format!("its own steps come to {own:?}"))
    }

    /// The difference in full.
    fn told(&self, fault: &str) -> Difference {
        let (found, outs) = self.found;
        let lengths = outs.map(<[u8]>::len);
        let [first, second] = outs.map(hexadecimal);
        Difference(format!(
            "{fault}\nrun of {} turns into {lengths:?} bytes\nrecipe {}\nmodel {:?}\nfound {found:?}\n\
             found first {first}\nfound second {second}",
            self.turns,
            hexadecimal(self.file),
            self.expected.0
        ))
    }
}

/// The bytes of the last image, in the buffer that the answer names.
fn last_image<'r>((answer, outs): (RanAnswer, Buffers<'r>)) -> &'r [u8] {
    let out = outs[(answer.buffer % 2) as usize];
    &out[..(answer.length as usize).min(out.len())]
}

/// What a run comes to.
#[derive(Debug, Clone, PartialEq, Eq)]
struct Chain {
    stop: u32,
    turns: u32,
    image: Vec<u8>,
}

impl Chain {
    fn of(answer: &RanAnswer, image: &[u8]) -> Chain {
        Chain {
            stop: answer.stop,
            turns: answer.turns,
            image: image.to_vec(),
        }
    }

    /// The next turn, looked for from that number on: whether it is taken, or why not.
    fn turn(
        &mut self,
        implementation: &dyn Implementation,
        from: &mut u64,
        out: &mut [u8],
    ) -> Option<u32> {
        let names = u64::from(u16::from_le_bytes([self.image[0], self.image[1]]));
        let mut stop = IDLE;
        for name in (0..names).map(|more| (*from + more) % names) {
            let stepped = implementation.step(&self.image, name, out)?;
            if stepped.outcome == RULE {
                self.image.clear();
                self.image.extend(&out[..stepped.length as usize]);
                self.turns += 1;
                *from = name + 1;
                return Some(TURNS);
            }
            if (stepped.outcome, stepped.number) == (REFUSED, causes::ROOM) {
                stop = ROOM;
            }
        }
        Some(stop)
    }
}

/// A load and the steps of a host that goes round by number, as the library itself answers them;
/// `None` where it has no loader or no stepper.
fn chain(implementation: &dyn Implementation, file: &[u8], most: u16) -> Option<Chain> {
    let mut out = vec![0; limits::MAX_IMAGE];
    let loaded = implementation.load(file, &mut out)?;
    let mut chain = Chain {
        stop: TURNS,
        turns: 0,
        image: out[..loaded.length as usize].to_vec(),
    };
    let mut from = 0;
    while chain.turns < u32::from(most) && chain.stop == TURNS {
        chain.stop = chain.turn(implementation, &mut from, &mut out)?;
    }
    Some(chain)
}
