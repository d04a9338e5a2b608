//! Where the networks of a result are written: a `Vec`, or the first elements of a slice.

use cidr_support::vec::Vec;
use cidr_support::alloc::AllocError;

/// Elements are written to it, one behind the other.
pub(crate) trait Writable<C>: Sized {
    /// Writes an element behind the others, where there is room.
    fn put(&mut self, element: C);

    /// Writes an element behind the others, or is an error where there is no room.
    fn write(&mut self, element: C) -> Result<(), AllocError>;

}

impl<C: Copy> Writable<C> for Vec<C> {
    #[inline]
    fn put(&mut self, element: C) {
        self.push_reserved(element);
    }

    #[inline]
    fn write(&mut self, element: C) -> Result<(), AllocError> {
        self.push(element)?;
        Ok(())
    }
}

/// The first elements of a slice, which are written.
pub(crate) struct Filled<'a, C> {
    out: &'a mut [C],
    count: usize,
}

impl<'a, C> Filled<'a, C> {
    /// Nothing is written.
    #[inline]
    pub(crate) fn new(out: &'a mut [C]) -> Filled<'a, C> {
        Filled { out, count: 0 }
    }

    /// How many elements are written.
    #[inline]
    pub(crate) fn count(&self) -> usize {
        self.count
    }
}

impl<'a, C: Copy> Writable<C> for Filled<'a, C> {
    #[inline]
    fn put(&mut self, element: C) {
        self.out[self.count] = element;
        self.count += 1;
    }

    #[inline]
    fn write(&mut self, element: C) -> Result<(), AllocError> {
        if self.count >= self.out.len() {
            return Err(AllocError);
        }
        self.put(element);
        Ok(())
    }
}
