//! Where memory comes from, and the errors where there is none.

use core::error::Error;
use core::fmt;

/// The global allocator, the only one.
#[derive(Clone, Copy, Debug, Default)]
pub struct Global;

/// No memory was left.
///
/// ```
/// # use cidr_support::alloc::*;
/// assert_eq!(AllocError.to_string(), "memory allocation failed");
/// assert_eq!(AllocFailed { value: 1 }.to_string(), "memory allocation failed");
/// ```
#[derive(Clone, Copy, Debug, PartialEq, Eq)]
pub struct AllocError;

impl fmt::Display for AllocError {
    fn fmt(&self, f: &mut fmt::Formatter<'_>) -> fmt::Result {
        f.write_str("memory allocation failed")
    }
}

impl Error for AllocError {}

/// No memory was left for a value, which is given back.
#[derive(Clone, Copy)]
pub struct AllocFailed<T> {
    /// The value.
    pub value: T,
}

impl<T> fmt::Display for AllocFailed<T> {
    fn fmt(&self, f: &mut fmt::Formatter<'_>) -> fmt::Result {
        AllocError.fmt(f)
    }
}

impl<T> fmt::Debug for AllocFailed<T> {
    fn fmt(&self, f: &mut fmt::Formatter<'_>) -> fmt::Result {
        f.write_str("AllocFailed")
    }
}

impl<T> Error for AllocFailed<T> {}

impl<T> From<AllocFailed<T>> for AllocError {
    fn from(_: AllocFailed<T>) -> AllocError {
        AllocError
    }
}

/// Has memory.
pub trait Alloc {
    /// Where it comes from.
    ///
    /// ```
    /// # use cidr_support::{alloc::*, vec::Vec};
    /// struct Heap;
    ///
    /// impl Alloc for Heap {
    ///     fn alloc(&self) -> Global {
    ///         Global
    ///     }
    /// }
    /// assert_eq!(Vec::<u8>::new(Heap.alloc()).len(), 0);
    /// ```
    fn alloc(&self) -> Global;
}
