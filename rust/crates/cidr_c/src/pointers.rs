//! What C passes as pointers and lengths, as slices and references. What the header says of a pointer is what is relied on: it
//! leads to as many elements as the length says, which are the call's alone where it writes, and are there while it runs.
#![allow(unsafe_code)]

use core::slice::{from_raw_parts, from_raw_parts_mut};

/// The slice at a pointer, which may be null where the length is 0.
pub unsafe fn slice<'a, T>(start: *const T, len: usize) -> &'a [T] {
    if len == 0 {
        return &[];
    }
    // SAFETY: by the header.
    unsafe { from_raw_parts(start, len) }
}

/// The slice at a pointer, for writing.
pub unsafe fn slice_mut<'a, T>(start: *mut T, len: usize) -> &'a mut [T] {
    if len == 0 {
        return &mut [];
    }
    // SAFETY: by the header.
    unsafe { from_raw_parts_mut(start, len) }
}
