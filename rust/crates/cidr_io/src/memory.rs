//! The memory of a run.

use cidr_support::vec::Vec;
use cidr_support::alloc::{AllocError, Global};

/// Allocates, and remembers whether an allocation was refused. By it a program tells that there is no memory only where
/// that is so.
pub trait Memory: Sized {
    /// The allocator, for what needs no room yet.
    fn alloc(&self) -> Global;

    /// Makes room for `more` items behind those that are there, which stay as they are. An error is an allocation that
    /// was refused, and is remembered; where there is the room already, there is none.
    fn reserve<T>(&mut self, items: &mut Vec<T>, more: usize) -> Result<(), AllocError>;

    /// Passes on what a call has returned that allocates from `alloc`, and whose only error is an allocation that was
    /// refused; the error is remembered.
    fn watch<T>(&mut self, made: Result<T, AllocError>) -> Result<T, AllocError>;

    /// Appends an item. An error is an allocation that was refused: the item is dropped, and the others stay as they are.
    #[inline]
    fn push<T>(&mut self, items: &mut Vec<T>, item: T) -> Result<(), AllocError> {
        self.reserve(items, 1)?;
        let Ok(()) = items.push(item) else {
            unreachable!()
        };
        Ok(())
    }
}

/// The memory that the system gives.
pub struct Heap {
    alloc: Global,
    refused: bool,
}

impl Heap {
    /// The memory of a run, of which nothing was refused yet.
    #[inline]
    pub fn new(alloc: Global) -> Self {
        Heap {
            alloc,
            refused: false,
        }
    }
}

impl Memory for Heap {
    #[inline]
    fn alloc(&self) -> Global {
        self.alloc
    }

    #[inline]
    fn reserve<T>(&mut self, items: &mut Vec<T>, more: usize) -> Result<(), AllocError> {
        let made = items.reserve(more);
        if made.is_err() {
            self.refused = true;
        }
        made
    }

    #[inline]
    fn watch<T>(&mut self, made: Result<T, AllocError>) -> Result<T, AllocError> {
        if made.is_err() {
            self.refused = true;
        }
        made
    }
}
