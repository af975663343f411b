//! Zeroed memory of any length that takes address space only: pages that nobody
//! touches are never there.  For Linux on x86-64, as the library is.

use std::ffi::c_void;

extern "C" {
    fn mmap(at: *mut c_void, length: usize, access: i32, flags: i32, file: i32, offset: i64) -> *mut c_void;
    fn munmap(at: *mut c_void, length: usize) -> i32;
}

const READ_AND_WRITE: i32 = 0x1 | 0x2;
/// Private, of no file, and with nothing set aside for it.
const FLAGS: i32 = 0x02 | 0x20 | 0x4000;

pub struct Mapped {
    at: *mut c_void,
    length: usize,
}

impl Mapped {
    pub fn new(length: usize) -> Mapped {
        // SAFETY: a new mapping at a place of the system's choice.
        let at = unsafe { mmap(std::ptr::null_mut(), length, READ_AND_WRITE, FLAGS, -1, 0) };
        assert!(at as isize != -1, "there is no address space of {length} bytes");
        Mapped { at, length }
    }

    pub fn bytes(&mut self) -> &mut [u8] {
        // SAFETY: the mapping has this length, is zeroed and is this value's alone.
        unsafe { std::slice::from_raw_parts_mut(self.at.cast(), self.length) }
    }
}

impl Drop for Mapped {
    fn drop(&mut self) {
        // SAFETY: the mapping was made by `new` and nobody borrows it any more.
        unsafe { munmap(self.at, self.length) };
    }
}
