//! The rows of a table as a probe.

use crate::count::Count;
use crate::probe::Probe;
use core::cmp::Ordering;

/// The rows of a table as a [`Probe`](crate::Probe), for `longest_match`. The call `probe` of `LpmTable` makes it. The
/// count of the comparisons is for the contracts and takes no memory.
pub struct Rows<'a, C, V> {
    rows: &'a [(C, V)],
    count: Count,
}

impl<'a, C, V> Rows<'a, C, V> {
    /// A probe that has made no comparison.
    #[inline]
    pub(crate) fn new(rows: &'a [(C, V)]) -> Self {
        Rows {
            rows,
            count: Count::zero(),
        }
    }
}

impl<'a, C: Ord, V> Probe<C> for Rows<'a, C, V> {
    #[inline]
    fn len(&self) -> usize {
        self.rows.len()
    }

    #[inline]
    fn compare(&mut self, i: usize, key: &C) -> Ordering {
        self.count.tick();
        let row = &self.rows[i];
        row.0.cmp(key)
    }
}
