//! Whether somebody reads along: an open file that is a terminal.

use std::os::raw::c_int;

pub const STANDARD_OUTPUT: c_int = 1;
pub const STANDARD_ERROR: c_int = 2;

extern "C" {
    fn isatty(file: c_int) -> c_int;
}

pub fn is_terminal(file: c_int) -> bool {
    // SAFETY: any number may be asked about.
    unsafe { isatty(file) == 1 }
}
