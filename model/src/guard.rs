//! A buffer that ends where a page begins that nobody may touch: a read or write past the end of
//! what is placed in it stops the program.

use std::os::raw::{c_int, c_void};

const NONE: c_int = 0;
const READ_AND_WRITE: c_int = 1 | 2;
const PRIVATE_AND_ANONYMOUS: c_int = 0x02 | 0x20;
/// A multiple of every page size in use.
const PAGE: usize = 65_536;

extern "C" {
    fn mmap(
        address: *mut c_void,
        length: usize,
        protection: c_int,
        flags: c_int,
        file: c_int,
        offset: i64,
    ) -> *mut c_void;
    fn mprotect(address: *mut c_void, length: usize, protection: c_int) -> c_int;
    fn munmap(address: *mut c_void, length: usize) -> c_int;
}

/// Room for a number of bytes, between two pages that trap.
pub struct Guarded {
    mapping: *mut u8,
    room: usize,
}

impl Guarded {
    /// A buffer with room for at least that many bytes.
    pub fn new(least: usize) -> Guarded {
        let room = (least.max(1) + PAGE - 1) / PAGE * PAGE;
        let whole = room + 2 * PAGE;
        // SAFETY: a new private mapping, and only its inner pages are opened.
        unsafe {
            let none = std::ptr::null_mut();
            let mapping = mmap(none, whole, NONE, PRIVATE_AND_ANONYMOUS, -1, 0);
            assert!(mapping as isize != -1, "no memory for a guarded buffer");
            let mapping = mapping.cast::<u8>();
            let opened = mprotect(mapping.add(PAGE).cast(), room, READ_AND_WRITE);
            assert!(opened == 0, "no access to a guarded buffer");
            Guarded { mapping, room }
        }
    }

    /// The last `length` bytes before the page that traps.
    pub fn last(&mut self, length: usize) -> &mut [u8] {
        assert!(length <= self.room, "the guarded buffer is too small");
        // SAFETY: the bytes lie in the pages that `new` opened, and `self` is lent for as long.
        unsafe {
            let start = self.mapping.add(PAGE + self.room - length);
            std::slice::from_raw_parts_mut(start, length)
        }
    }

    /// The bytes, placed against the page that traps.
    pub fn place(&mut self, bytes: &[u8]) -> &[u8] {
        let placed = self.last(bytes.len());
        placed.copy_from_slice(bytes);
        placed
    }
}

impl Drop for Guarded {
    fn drop(&mut self) {
        // SAFETY: the mapping is `new`'s, whole, and nothing borrows from it any more.
        unsafe {
            munmap(self.mapping.cast(), self.room + 2 * PAGE);
        }
    }
}
