//! The C library's search for a byte.

#![allow(unsafe_code)]

use std::ffi::{c_int, c_void};

unsafe extern "C" {
    fn memchr(bytes: *const c_void, byte: c_int, length: usize) -> *const c_void;
}

/// The place of the first such byte.
fn find(bytes: &[u8], byte: u8) -> Option<usize> {
    let start = bytes.as_ptr();
    // SAFETY: the pointer and the length are those of a lent slice.
    let found = unsafe { memchr(start.cast(), c_int::from(byte), bytes.len()) };
    // Not null only inside the slice.
    (!found.is_null()).then(|| found as usize - start as usize)
}

/// Where `count` strings end, with a call for each.
pub fn strings_end(bytes: &[u8], count: u32) -> Option<usize> {
    let mut at = 0;
    for _ in 0..count {
        at += find(&bytes[at..], 0)? + 1;
    }
    Some(at)
}

/// One call for a byte that is not there, 0x80: the time it takes to look at
/// each byte once.
pub fn look_at_all(bytes: &[u8]) {
    assert_eq!(find(bytes, 0x80), None);
}
