//! The test load on bytes, around whoever loads and steps: two buffers in turn, and all lines in one text.

use crate::answers::{Implementation, SteppedAnswer, DONE, RULE, WAITING};
use crate::causes;
use crate::kinds;
use crate::limits;
use std::fmt::Write;

/// The bytes before the recipe.
const FRONT: usize = 6;

/// What the program prints for these bytes.
pub fn printed<I: Implementation>(implementation: &I, bytes: &[u8]) -> String {
    let present = bytes.len().min(FRONT);
    let mut front = [0; FRONT];
    front[..present].copy_from_slice(&bytes[..present]);
    let mut state = u32::from_le_bytes([front[0], front[1], front[2], front[3]]);
    let count = u16::from_le_bytes([front[4], front[5]]);
    let (mut image, mut other) = (vec![0; limits::MAX_IMAGE], vec![0; limits::MAX_IMAGE]);
    let loaded = implementation.load(&bytes[present..], &mut image);
    let loaded = loaded.unwrap_or_default();
    if loaded.refusal != 0 {
        return format!("verdict {}\n", loaded.refusal);
    }
    if state == 0 {
        return format!("verdict {}\n", causes::SEED);
    }
    let mut length = loaded.length as usize;
    let mut text = String::new();
    for _ in 0..count.min(limits::MAX_DRAWS) {
        state ^= state << 13;
        state ^= state >> 17;
        state ^= state << 5;
        let thread = thread_at(&image, state);
        let stepped = implementation.step(&image[..length], thread, &mut other);
        let stepped = stepped.unwrap_or_default();
        put_line(&mut text, thread, &stepped);
        if stepped.outcome == RULE {
            length = stepped.length as usize;
            std::mem::swap(&mut image, &mut other);
        }
    }
    text
}

/// The thread at that place, going round.
fn thread_at(image: &[u8], state: u32) -> u64 {
    let names = usize::from(u16::from_le_bytes([image[0], image[1]]));
    let is_thread =
        |name: &usize| image[limits::FIRST_HEAD + limits::HEAD_LENGTH * name] == kinds::THREAD;
    let mut threads = (0..names).filter(is_thread);
    let place = state as usize % threads.clone().count();
    threads.nth(place).map_or(0, |name| name as u64)
}

fn put_line(text: &mut String, thread: u64, stepped: &SteppedAnswer) {
    let word = match stepped.outcome {
        RULE => "step",
        DONE => "done",
        WAITING => "waiting",
        _ => "refused",
    };
    let _ = writeln!(text, "{thread} {word} {}", stepped.number);
}
