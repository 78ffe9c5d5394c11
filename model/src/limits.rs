//! Document 01, "Limits" and "The image": each limit once, by the name that the header has for it.

use std::ops::RangeInclusive;

/// Bytes 0 and 1 of a recipe file.
pub const OPENING: [u8; 2] = [0x4C, 0x46];
/// "file 12 to 8,192 bytes"
pub const MIN_FILE: usize = 12;
pub const MAX_FILE: usize = 8_192;
pub const FILE_BYTES: RangeInclusive<usize> = MIN_FILE..=MAX_FILE;
/// "2 to 17 parts": the type table, and a term for each bay.
pub const MIN_PARTS: usize = 2;
pub const MAX_PARTS: usize = 17;
/// The most bays: every part but the type table.
pub const MAX_BAYS: usize = MAX_PARTS - 1;
/// "3 to 256 type entries"
pub const MIN_ENTRIES: usize = 3;
pub const MAX_ENTRIES: usize = 256;
pub const ENTRIES: RangeInclusive<usize> = MIN_ENTRIES..=MAX_ENTRIES;
/// The bytes of one type entry: kind, p, q.
pub const ENTRY_LENGTH: usize = 3;
/// "two bytes for each bay, its starting num" (document 02, T-07)
pub const STARTING_NUM_LENGTH: usize = 2;
/// "nesting 100, the root being 1"
pub const MAX_NESTING: usize = 100;
/// "1,024 nodes over all terms"
pub const MAX_RECIPE_NODES: usize = 1_024;
/// "At most 256 names"
pub const MAX_NAMES: usize = 256;
/// "4,096 nodes in all, every node of every expression counted"
pub const MAX_NODES: usize = 4_096;
/// Where the first head stands, behind the number of names.
pub const FIRST_HEAD: usize = 2;
/// The bytes of a head: kind, companion, offset, length.
pub const HEAD_LENGTH: usize = 6;
/// The most bytes of a node.
pub const MAX_NODE_LENGTH: usize = 3;
/// "No image is longer than 2 + 6 × 256 + 3 × 4,096 = 13,826 bytes."
pub const MAX_IMAGE: usize = FIRST_HEAD + HEAD_LENGTH * MAX_NAMES + MAX_NODE_LENGTH * MAX_NODES;
/// "a number above 10,000 as 10,000": the draws of the test load (document 02, T-06).
pub const MAX_DRAWS: u16 = 10_000;
