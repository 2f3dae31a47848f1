//! Memory between two pages of the operating system's that cannot be touched.

use std::ffi::c_void;
use std::ptr::null_mut;
use std::slice::from_raw_parts_mut;

// As Linux declares them on x86-64.
extern "C" {
    fn mmap(address: *mut c_void, length: usize, protection: i32, flags: i32, file: i32, offset: i64) -> *mut c_void;
    fn mprotect(address: *mut c_void, length: usize, protection: i32) -> i32;
    fn munmap(address: *mut c_void, length: usize) -> i32;
}

const UNTOUCHABLE: i32 = 0;
const READ_AND_WRITE: i32 = 3;
const PRIVATE_AND_ANONYMOUS: i32 = 0x22;

const PAGE: usize = 4_096;

/// More than any slice has.
const BYTES: usize = 32 * PAGE;

pub struct Guarded {
    first: *mut u8,
}

impl Default for Guarded {
    fn default() -> Self {
        // SAFETY: the pages are new, and the first of those that are made usable lies behind the first of them.
        unsafe {
            let all = mmap(null_mut(), BYTES + 2 * PAGE, UNTOUCHABLE, PRIVATE_AND_ANONYMOUS, -1, 0);
            assert_ne!(all as isize, -1, "no memory");
            let first = all.cast::<u8>().add(PAGE);
            assert_eq!(mprotect(first.cast(), BYTES, READ_AND_WRITE), 0, "no memory");
            Guarded { first }
        }
    }
}

impl Guarded {
    /// All the bytes between the two pages.
    pub fn bytes(&mut self) -> &mut [u8] {
        // SAFETY: they are this value's own, and zeros at first.
        unsafe { from_raw_parts_mut(self.first, BYTES) }
    }
}

impl Drop for Guarded {
    fn drop(&mut self) {
        // SAFETY: nothing is lent of what goes.
        unsafe { munmap(self.first.sub(PAGE).cast(), BYTES + 2 * PAGE) };
    }
}
