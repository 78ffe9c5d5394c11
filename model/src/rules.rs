//! The rules in Fig. 5's order, then document 02's two, which take a pair or a list apart.

pub const BETA: u8 = 1;
pub const THREAD_NEW: u8 = 2;
pub const FUTURE_DEREF: u8 = 3;
pub const HANDLE_NEW: u8 = 4;
pub const HANDLE_BIND: u8 = 5;
pub const CELL_NEW: u8 = 6;
pub const CELL_EXCH: u8 = 7;
pub const CASE_PAIR: u8 = 8;
pub const CASE_LIST: u8 = 9;
