//! What is written in a file.

use crate::layout::Counts;
use cidr_lookup::Key;

/// The rows of a table: networks, and a value for each.
pub struct FileRows<'a, W> {
    /// The networks, by first address and then by length.
    pub keys: &'a [Key<W>],
    /// Where the value of each begins among the values, in bytes from 0 on, and last where they end: one more than
    /// keys.
    pub offsets: &'a [u32],
    /// The values, one behind the other.
    pub values: &'a [u8],
}

/// A table: its rows, and the look-up table of their networks.
pub struct Contents<'a, W> {
    /// The rows.
    pub rows: &'a FileRows<'a, W>,
    /// The entries of the blocks of addresses, as `build` of `cidr_lookup` returns them.
    pub first: &'a [u32],
    /// The words of nodes and lists, from the same.
    pub words: &'a [u32],
    /// How many steps there are behind the first bits.
    pub steps: u32,
}

/// Their counts.
#[inline]
pub(crate) fn counts_of<W>(contents: &Contents<'_, W>) -> Counts {
    Counts {
        rows: contents.rows.keys.len() as u32,
        entries: contents.first.len() as u32,
        words: contents.words.len() as u32,
        steps: contents.steps,
        values: contents.rows.values.len() as u32,
    }
}
