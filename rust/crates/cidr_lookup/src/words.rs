//! Words of 32 bits, as they lie in an array or are put into one.

/// Words that can be read.
use cidr_support::vec::Vec;
pub trait Words: Sized {
    /// How many there are.
    ///
    /// ```
    /// # use cidr::Ipv4Cidr;
    /// # use cidr_lookup::*;
    /// # use cidr_support::alloc::Global;
    /// # use cidr_table::LpmTable;
    /// # use core::net::Ipv4Addr;
    /// assert_eq!(Words::len(&[5u32, 6].as_slice()), 2);
    /// # Ok::<(), Box<dyn std::error::Error>>(())
    /// ```
    fn len(&self) -> usize;

    /// The word at an index.
    ///
    /// ```
    /// # use cidr::Ipv4Cidr;
    /// # use cidr_lookup::*;
    /// # use cidr_support::alloc::Global;
    /// # use cidr_table::LpmTable;
    /// # use core::net::Ipv4Addr;
    /// assert_eq!(Words::word(&[5u32, 6].as_slice(), 1), 6);
    /// # Ok::<(), Box<dyn std::error::Error>>(())
    /// ```
    ///
    /// # Panics
    ///
    /// Where an index is not below the length.
    fn word(&self, at: usize) -> u32;
}

impl Words for &[u32] {
    #[inline(always)]
    fn len(&self) -> usize {
        let slice: &[u32] = self;
        slice.len()
    }

    #[inline(always)]
    fn word(&self, at: usize) -> u32 {
        let slice: &[u32] = self;
        slice[at]
    }
}

/// Why no more words are put.
#[derive(Debug, PartialEq)]
pub(crate) enum Stop {
    /// No place of 31 bits is left.
    TooMany,
    /// The word is not taken.
    Refused,
}

/// Which of the two arrays has no more put into it.
pub(crate) enum Stopped {
    First(Stop),
    Words(Stop),
}

/// What words are put into.
pub(crate) trait Sink: Sized {
    /// How many there are.
    fn len(&self) -> usize;

    /// Puts one more.
    fn push(&mut self, word: u32) -> Result<(), Stop>;
}

impl Sink for Vec<u32> {
    #[inline]
    fn len(&self) -> usize {
        self.as_slice().len()
    }

    #[inline]
    fn push(&mut self, word: u32) -> Result<(), Stop> {
        let words: &mut Vec<u32> = self;
        match words.push(word) {
            Ok(()) => Ok(()),
            Err(_) => Err(Stop::Refused),
        }
    }
}

/// Words that are compared with those of an array, from its first on.
pub(crate) struct Compared<'a, T> {
    pub(crate) words: &'a T,
    /// How many were put.
    pub(crate) index: usize,
}

impl<T: Words> Sink for Compared<'_, T> {
    #[inline]
    fn len(&self) -> usize {
        self.index.min(self.words.len())
    }

    fn push(&mut self, word: u32) -> Result<(), Stop> {
        if self.index >= self.words.len() {
            return Err(Stop::Refused);
        }
        if self.words.word(self.index) != word {
            return Err(Stop::Refused);
        }
        self.index += 1;
        Ok(())
    }
}
