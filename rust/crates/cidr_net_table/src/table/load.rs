//! A table loaded from prefix bytes.

use cidr_support::vec::Vec;
use crate::table::LpmTable;
use cidr::names::errors::PrefixBytesError;
use cidr::names::{NetworkBits, PrefixBytes};
use cidr_support::alloc::Global;
use core::error::Error;
use core::fmt;

/// Why bytes are not loaded as a table.
#[derive(Debug, PartialEq)]
pub enum LoadError {
    /// The prefix at this index, counted from 0, is not parsed: `prefix 1: prefix length is too long`.
    Prefix(usize, PrefixBytesError),
    /// An allocation failed: `memory allocation failed`.
    NoMemory,
}

impl fmt::Display for LoadError {
    #[inline]
    fn fmt(&self, f: &mut fmt::Formatter<'_>) -> fmt::Result {
        match self {
            LoadError::Prefix(index, e) => write!(f, "prefix {index}: {e}"),
            LoadError::NoMemory => f.write_str("memory allocation failed"),
        }
    }
}

impl Error for LoadError {}

impl<C: PrefixBytes + Copy> LpmTable<C, usize> {
    /// The table of prefixes written one after the other as prefix bytes, each with its index, counted from 0. Of equal
    /// prefixes the last one's index is kept.
    ///
    /// Returns the first error in the order of the bytes: a prefix that is not parsed, with its index, or an allocation
    /// that fails. No bytes are the empty table. The rows are allocated as the prefixes are parsed, and sorted once,
    /// while each `insert` of a new key shifts rows.
    ///
    /// ```
    /// # use cidr::names::{errors::*, *};
    /// # use cidr_table::{alloc::*, *};
    /// # type Routes = LpmTable<Ipv4Cidr, u32>;
    /// let routes = LpmTable::<Ipv4Cidr, usize>::load(Global, &[8, 10, 8, 11, 8, 10])?;
    /// assert_eq!(format!("{:?}", routes.iter().next()), "Some((10.0.0.0/8, 2))");
    /// assert_eq!(routes.len(), 2);
    /// let loaded = LpmTable::<Ipv4Cidr, usize>::load(Global, &[33]);
    /// assert!(loaded.is_err());
    /// # Ok::<(), Box<dyn std::error::Error>>(())
    /// ```
    ///
    /// # Errors
    ///
    /// `LoadError`, which tells what is wrong.
    #[inline]
    pub fn load(alloc: Global, bytes: &[u8]) -> Result<Self, LoadError> {
        let rows = read_rows(alloc, bytes)?;
        Ok(of_last_places(rows))
    }
}

/// The prefixes in the order of the bytes, each with its index.
fn read_rows<C: PrefixBytes + Copy>(
    alloc: Global,
    bytes: &[u8],
) -> Result<Vec<(C, usize)>, LoadError> {
    let mut rows = Vec::new(alloc);
    let mut rest = bytes;
    while !rest.is_empty() {
        let index = rows.len();
        let (key, used) = match C::from_prefix_bytes(rest) {
            Ok(read) => read,
            Err(e) => return Err(LoadError::Prefix(index, e)),
        };
        if rows.push((key, index)).is_err() {
            return Err(LoadError::NoMemory);
        }
        rest = &rest[used..];
    }
    Ok(rows)
}

/// The table of the rows, where of those of one key the one with the greatest index counts.
///
/// They are sorted by key and index first, in place: the stable sort of `from_rows` would take memory.
#[inline]
fn of_last_places<C: NetworkBits + Copy>(mut rows: Vec<(C, usize)>) -> LpmTable<C, usize> {
    rows.sort_unstable();
    LpmTable::from_rows(rows)
}
