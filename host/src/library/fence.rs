//! Memory between two unreadable pages, so that a read or write past either end of what is laid
//! against it traps; the rest of the pages is filled with guard bytes that must stay.

use std::ffi::{c_int, c_void};

extern "C" {
    fn mmap(at: *mut c_void, length: usize, protection: c_int, flags: c_int, file: c_int, offset: i64) -> *mut c_void;
    fn mprotect(at: *mut c_void, length: usize, protection: c_int) -> c_int;
    fn munmap(at: *mut c_void, length: usize) -> c_int;
}

const NONE: c_int = 0;
const READ: c_int = 1;
const READ_WRITE: c_int = 3;
const PRIVATE_ANONYMOUS: c_int = 0x22;
const PAGE: usize = 4096;
const GUARD: u8 = 0x5C;

/// Which unreadable page the bytes are laid against.
#[derive(Clone, Copy, Debug, PartialEq, Eq)]
pub enum Side {
    Front,
    Back,
}

/// Pages that can be read and written, with an unreadable page before and one behind.
pub struct Fence {
    base: *mut u8,
    room: usize,
    /// Where the bytes last laid down start, and how many they are.
    laid: (usize, usize),
}

impl Fence {
    /// Room for at least `bytes` bytes.
    pub fn new(bytes: usize) -> Self {
        let room = bytes.div_ceil(PAGE).max(1) * PAGE;
        // SAFETY: a fresh private mapping, of which the inner pages are opened.
        unsafe {
            let base = mmap(std::ptr::null_mut(), room + 2 * PAGE, NONE, PRIVATE_ANONYMOUS, -1, 0).cast::<u8>();
            assert!(base as isize != -1, "no memory for a fence");
            assert_eq!(mprotect(base.add(PAGE).cast(), room, READ_WRITE), 0);
            std::slice::from_raw_parts_mut(base.add(PAGE), room).fill(GUARD);
            Fence { base, room, laid: (0, 0) }
        }
    }

    fn protect(&mut self, protection: c_int) {
        // SAFETY: the inner pages are this fence's own.
        let done = unsafe { mprotect(self.base.add(PAGE).cast(), self.room, protection) };
        assert_eq!(done, 0);
    }

    fn pages(&self) -> &[u8] {
        // SAFETY: the inner pages can always be read.
        unsafe { std::slice::from_raw_parts(self.base.add(PAGE), self.room) }
    }

    fn pages_mut(&mut self) -> &mut [u8] {
        // SAFETY: called between `protect(READ_WRITE)` and `protect(READ)`.
        unsafe { std::slice::from_raw_parts_mut(self.base.add(PAGE), self.room) }
    }

    /// Lays the bytes against a side; what was laid before is guard bytes again.
    pub fn lay(&mut self, bytes: &[u8], side: Side) -> *mut u8 {
        self.protect(READ_WRITE);
        let (start, length) = self.laid;
        self.pages_mut()[start..start + length].fill(GUARD);
        let start = if side == Side::Front { 0 } else { self.room - bytes.len() };
        self.laid = (start, bytes.len());
        let pages = self.pages_mut();
        pages[start..start + bytes.len()].copy_from_slice(bytes);
        pages[start..].as_mut_ptr()
    }

    /// Makes the pages unwritable: a write to an input traps.
    pub fn lock(&mut self) {
        self.protect(READ);
    }

    /// The bytes laid down, as they are now.
    pub fn bytes(&self) -> &[u8] {
        let (start, length) = self.laid;
        &self.pages()[start..start + length]
    }

    /// Are the 256 bytes on the open side of what was laid still guard bytes?
    pub fn guards_stand(&self) -> bool {
        let (start, length) = self.laid;
        let pages = self.pages();
        let before = &pages[start.saturating_sub(256)..start];
        let behind = &pages[start + length..(start + length + 256).min(self.room)];
        before.iter().chain(behind).all(|&byte| byte == GUARD)
    }
}

impl Drop for Fence {
    fn drop(&mut self) {
        // SAFETY: the whole mapping is this fence's own.
        unsafe { munmap(self.base.cast(), self.room + 2 * PAGE) };
    }
}

#[cfg(test)]
mod tests {
    use super::*;

    #[test]
    fn what_is_laid_stands_and_guards_are_watched() {
        let mut fence = Fence::new(5000);
        for (bytes, side) in [(vec![1, 2, 3], Side::Back), (vec![9; 4096], Side::Front), (vec![], Side::Back)] {
            let at = fence.lay(&bytes, side);
            assert_eq!(fence.bytes(), bytes);
            assert!(fence.guards_stand());
            if side == Side::Front {
                // SAFETY: 4096 bytes of 8192 are laid; one behind them is a guard byte.
                unsafe { *at.add(bytes.len()) = 0 };
                assert!(!fence.guards_stand());
                unsafe { *at.add(bytes.len()) = GUARD };
            }
        }
        fence.lay(&[4], Side::Back);
        fence.lock();
        assert_eq!(fence.bytes(), [4]);
    }
}
