//! Random images: sound ones, ones at the limits, and damaged ones; and what a step is called with.

use crate::draw::Draw;
use crate::generate::configurations::{
    configuration, configuration_at_limits, meeting_names, outcome_at_limit,
};
use crate::image::{names_of_kind, write_image};
use crate::kinds;
use crate::limits;

/// A slice to step: mostly an image, sometimes a damaged one.
pub fn image(draw: &mut Draw) -> Vec<u8> {
    let mut made = match draw.below(16) {
        0 => write_image(&configuration_at_limits(draw)),
        1 => write_image(&outcome_at_limit(draw)),
        2 | 3 => write_image(&meeting_names(draw)),
        _ => write_image(&configuration(draw)),
    };
    if draw.one_in(10) {
        change_companion(&mut made, draw);
    } else if draw.one_in(3) {
        for _ in 0..draw.pick(&[1, 1, 2, 4]) {
            damage(&mut made, draw);
        }
    }
    made
}

/// A slice changed in one place.
pub fn damage(image: &mut Vec<u8>, draw: &mut Draw) {
    if image.is_empty() {
        return;
    }
    let at = draw.below(image.len());
    match draw.below(13) {
        10 | 11 => open_a_used_handle(image, draw),
        12 => change_companion(image, draw),
        0 => image[at] = draw.byte(),
        1 => image[at] ^= 1 << draw.below(8),
        2 => image[at] = image[at].wrapping_add(1),
        3 => image[at] = image[at].wrapping_sub(1),
        4 => image.truncate(at),
        5 => image.push(draw.below(14) as u8),
        6 => damage_head(image, draw),
        7 => damage_head(image, draw),
        8 => image[at] = draw.below(15) as u8,
        _ => lengthen(image, draw),
    }
}

/// Owners about the limit of bays: the highest that there may be, and the first that breaks the layout.
pub const EDGE_OWNERS: [u8; 2] = [limits::MAX_BAYS as u8 - 1, limits::MAX_BAYS as u8];

/// Another companion for a name of some kind that there is: an owner about the limit, or any byte. An open
/// handle's is no owner.
fn change_companion(image: &mut [u8], draw: &mut Draw) {
    let of_kinds = (kinds::THREAD..=kinds::FUTURE).map(|kind| names_of_kind(image, kind));
    let of_kinds: Vec<Vec<u64>> = of_kinds.filter(|names| !names.is_empty()).collect();
    if of_kinds.is_empty() {
        return;
    }
    let kind = draw.below(of_kinds.len());
    let name = draw.pick(&of_kinds[kind]) as usize;
    let head = limits::FIRST_HEAD + limits::HEAD_LENGTH * name;
    image[head + 1] = match draw.below(4) {
        0 => draw.byte(),
        1 => u8::MAX,
        _ => draw.pick(&EDGE_OWNERS),
    };
}

/// A used handle becomes an open one, of a future that has a handle or of any name.
fn open_a_used_handle(image: &mut [u8], draw: &mut Draw) {
    let used = names_of_kind(image, kinds::USED_HANDLE);
    let futures = names_of_kind(image, kinds::FUTURE);
    if used.is_empty() {
        return;
    }
    let handle = draw.pick(&used) as usize;
    let companion = if futures.is_empty() || draw.one_in(3) {
        draw.byte() % image[0].max(1)
    } else {
        draw.pick(&futures) as u8
    };
    let head = limits::FIRST_HEAD + limits::HEAD_LENGTH * handle;
    image[head..head + 2].copy_from_slice(&[kinds::OPEN_HANDLE, companion]);
}

/// A field of a head changed a little: kind, companion, offset or length.
fn damage_head(image: &mut [u8], draw: &mut Draw) {
    let names = usize::from(image[0]).max(1);
    let name = draw.below(names);
    let field = draw.below(limits::HEAD_LENGTH);
    let at = limits::FIRST_HEAD + limits::HEAD_LENGTH * name + field;
    let value = draw.below(6) as u8;
    if let Some(byte) = image.get_mut(at) {
        *byte = match draw.below(3) {
            0 => value,
            1 => byte.wrapping_add(1),
            _ => byte.wrapping_sub(1),
        };
    }
}

/// Bytes beyond the end, also past the longest image, the last length told of them.
fn lengthen(image: &mut Vec<u8>, draw: &mut Draw) {
    let more = draw.pick(&[1, 2, 300, 4_096, 13_826, 16_000]);
    let filler = draw.pick(&[2, 3, 1, 12]);
    image.resize(image.len() + more, filler);
    let names = usize::from(image[0]) + 256 * usize::from(image[1]);
    let last = limits::FIRST_HEAD + limits::HEAD_LENGTH * names;
    if names > 0 && last <= image.len() && draw.one_in(2) {
        let old = u16::from_le_bytes([image[last - 2], image[last - 1]]);
        let new = old.wrapping_add(more as u16).to_le_bytes();
        image[last - 2..last].copy_from_slice(&new);
    }
}

/// A number to step: mostly a thread's, sometimes of no thread, also a huge one.
pub fn thread_number(draw: &mut Draw, image: &[u8]) -> u64 {
    let names = u64::from(image.first().copied().unwrap_or(0));
    let below = draw.below(names as usize + 1) as u64;
    let threads = names_of_kind(image, kinds::THREAD);
    match draw.below(30) {
        0 => names,
        1 => below + 256,
        2 => below + 65_536,
        3 => below + (1 << 32),
        4 => u64::MAX - below,
        5 => u64::from(draw.byte()),
        _ if threads.is_empty() => below,
        _ => draw.pick(&threads),
    }
}

/// The length of an out buffer: mostly just enough.
pub fn out_length(draw: &mut Draw) -> usize {
    match draw.below(24) {
        0 => 0,
        1 => limits::MAX_IMAGE - 1,
        2 => limits::MAX_IMAGE + 1,
        3 => draw.below(limits::MAX_IMAGE),
        4 => limits::MAX_IMAGE + draw.below(5_000),
        _ => limits::MAX_IMAGE,
    }
}
