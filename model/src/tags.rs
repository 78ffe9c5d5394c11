//! Documents 01 and 02, the table of node forms: the tag of a node, its first byte.

pub const VARIABLE: u8 = 0;
pub const LAMBDA: u8 = 1;
pub const APPLICATION: u8 = 2;
pub const UNIT: u8 = 3;
pub const NUM: u8 = 4;
pub const CELL: u8 = 5;
pub const EXCH: u8 = 6;
pub const THREAD: u8 = 7;
pub const HANDLE: u8 = 8;
pub const NAME: u8 = 9;
pub const PAIR: u8 = 10;
pub const LIST: u8 = 11;
pub const CASE_PAIR: u8 = 12;
pub const CASE_LIST: u8 = 13;
