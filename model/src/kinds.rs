//! Document 01, "The image": the kind of a name, the first byte of its head.

pub const THREAD: u8 = 1;
pub const CELL: u8 = 2;
pub const OPEN_HANDLE: u8 = 3;
pub const USED_HANDLE: u8 = 4;
/// A future not yet bound.
pub const FUTURE: u8 = 5;
