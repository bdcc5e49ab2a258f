//! Bytes that end where memory ends: a read past them is a fault, which libFuzzer reports as any other finding.

use std::ffi::{c_int, c_long, c_void};
use std::{ptr, slice};

extern "C" {
    fn mmap(
        address: *mut c_void,
        length: usize,
        protection: c_int,
        flags: c_int,
        file: c_int,
        offset: c_long,
    ) -> *mut c_void;
    fn mprotect(address: *mut c_void, length: usize, protection: c_int) -> c_int;
}

const NOTHING: c_int = 0;
const READ_AND_WRITE: c_int = 3;
const PRIVATE_AND_ANONYMOUS: c_int = 0x22;

/// A whole number of pages on every machine.
const SIZE: usize = 1 << 16;

/// Memory that nothing follows: the second half of its two is closed.
pub struct Fence(*mut u8);

impl Fence {
    pub fn new() -> Self {
        // SAFETY: the mapping is a fresh one, and the half that is closed is its own.
        let (start, closed) = unsafe {
            let start = mmap(
                ptr::null_mut(),
                2 * SIZE,
                READ_AND_WRITE,
                PRIVATE_AND_ANONYMOUS,
                -1,
                0,
            );
            assert!(start as isize != -1, "there is no memory for a fence");
            (start, mprotect(start.byte_add(SIZE), SIZE, NOTHING))
        };
        assert!(closed == 0, "the end of a fence was not closed");
        Fence(start.cast())
    }

    /// A copy of the bytes, the last directly before the end.
    pub fn hold(&mut self, bytes: &[u8]) -> &[u8] {
        assert!(bytes.len() <= SIZE, "the bytes are more than the fence has");
        // SAFETY: the first half has the places and is open, and is borrowed as long as the copy is.
        unsafe {
            let place = self.0.add(SIZE - bytes.len());
            ptr::copy_nonoverlapping(bytes.as_ptr(), place, bytes.len());
            slice::from_raw_parts(place, bytes.len())
        }
    }
}

#[cfg(test)]
mod tests {
    use super::*;

    #[test]
    fn bytes_are_held_at_the_end() {
        let mut fence = Fence::new();
        let end = fence.0 as usize + SIZE;
        for bytes in [&[][..], &[7], &[1, 2, 3]] {
            let held = fence.hold(bytes);
            assert_eq!(held, bytes);
            assert_eq!(held.as_ptr() as usize + held.len(), end);
        }
    }
}
