//! Memory between two pages that may not be touched: whoever does ends the program.

use std::cell::RefCell;
use std::ffi::{c_int, c_void};
use std::ptr::null_mut;
use std::slice;

/// The bytes of a page on x86-64.
const PAGE: usize = 4_096;

/// Of the C library's, as Linux numbers them.
const NOBODY: c_int = 0;
const READ_AND_WRITE: c_int = 1 | 2;
const PRIVATE_AND_ANONYMOUS: c_int = 0x02 | 0x20;

extern "C" {
    fn mmap(
        address: *mut c_void,
        length: usize,
        protection: c_int,
        flags: c_int,
        file: c_int,
        offset: i64,
    ) -> *mut c_void;
    fn mprotect(address: *mut c_void, length: usize, protection: c_int) -> c_int;
    fn munmap(address: *mut c_void, length: usize) -> c_int;
}

/// Whole pages of bytes, with a page before and a page after that nobody may read or write.
pub struct Pages {
    bytes: *mut u8,
    length: usize,
}

thread_local! {
    /// Pages that a call is done with. New ones for each call would take longer than the call.
    static USED: RefCell<Vec<Pages>> = const { RefCell::new(Vec::new()) };
}

impl Pages {
    /// As many pages as hold so many bytes. They may hold anything.
    pub fn holding(least: usize) -> Self {
        let length = least.next_multiple_of(PAGE);
        let used = USED.with_borrow_mut(|used| {
            let at = used.iter().position(|pages| pages.length == length);
            at.map(|at| used.swap_remove(at))
        });
        used.unwrap_or_else(|| Pages::mapped(length))
    }

    /// Gives pages back, to be used again.
    pub fn give_back(self) {
        USED.with_borrow_mut(|used| used.push(self));
    }

    /// Fresh pages.
    fn mapped(length: usize) -> Self {
        let all = length + 2 * PAGE;
        // SAFETY: a fresh mapping, of which all but the first page and the last is opened.
        unsafe {
            let start = mmap(null_mut(), all, NOBODY, PRIVATE_AND_ANONYMOUS, -1, 0);
            assert_ne!(start as isize, -1, "no memory for {all} bytes");
            let bytes = start.cast::<u8>().add(PAGE);
            assert_eq!(mprotect(bytes.cast(), length, READ_AND_WRITE), 0);
            Pages { bytes, length }
        }
    }

    /// The bytes between the two pages.
    pub fn bytes(&self) -> &[u8] {
        // SAFETY: they are mapped as long as `self` lives.
        unsafe { slice::from_raw_parts(self.bytes, self.length) }
    }

    /// The same, to write.
    pub fn bytes_mut(&mut self) -> &mut [u8] {
        // SAFETY: as above, and nobody else has them.
        unsafe { slice::from_raw_parts_mut(self.bytes, self.length) }
    }
}

impl Drop for Pages {
    fn drop(&mut self) {
        // SAFETY: the mapping that `mapped` made, which nobody uses any more.
        let answer = unsafe { munmap(self.bytes.sub(PAGE).cast(), self.length + 2 * PAGE) };
        assert_eq!(answer, 0);
    }
}
