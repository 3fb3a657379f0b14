//! Memory between two unreadable pages, so that a byte touched past what is lent stops the run.

use std::ffi::c_void;
use std::ops::{Deref, DerefMut};
use std::ptr;

extern "C" {
    fn mmap(
        address: *mut c_void,
        length: usize,
        protection: i32,
        flags: i32,
        file: i32,
        offset: i64,
    ) -> *mut c_void;
    fn mprotect(address: *mut c_void, length: usize, protection: i32) -> i32;
    fn munmap(address: *mut c_void, length: usize) -> i32;
}

const NO_ACCESS: i32 = 0;
const READ_AND_WRITE: i32 = 3;
const PRIVATE_AND_ANONYMOUS: i32 = 0x22;

/// The size of the machine's pages, in which unreadable memory comes.
pub const GUARD: usize = 4096;

/// Whole pages of zeros with an unreadable page on either side.
pub struct Guarded {
    start: *mut u8,
    length: usize,
}

impl Guarded {
    /// At least `capacity` bytes.
    pub fn new(capacity: usize) -> Guarded {
        let length = capacity.next_multiple_of(GUARD).max(GUARD);
        unsafe {
            let whole = length + 2 * GUARD;
            let flags = PRIVATE_AND_ANONYMOUS;
            let base = mmap(ptr::null_mut(), whole, NO_ACCESS, flags, -1, 0);
            assert!(base as isize != -1, "no memory for a guarded slice");
            let start = base.cast::<u8>().add(GUARD);
            let opened = mprotect(start.cast(), length, READ_AND_WRITE);
            assert!(opened == 0, "the guarded memory cannot be opened");
            Guarded { start, length }
        }
    }

    /// Reads the byte past the end, which has to stop the program.
    pub fn read_past_end(&self) -> u8 {
        unsafe { self.start.add(self.length).read_volatile() }
    }
}

impl Deref for Guarded {
    type Target = [u8];

    fn deref(&self) -> &[u8] {
        unsafe { std::slice::from_raw_parts(self.start, self.length) }
    }
}

impl DerefMut for Guarded {
    fn deref_mut(&mut self) -> &mut [u8] {
        unsafe { std::slice::from_raw_parts_mut(self.start, self.length) }
    }
}

impl Drop for Guarded {
    fn drop(&mut self) {
        unsafe {
            munmap(self.start.sub(GUARD).cast(), self.length + 2 * GUARD);
        }
    }
}
