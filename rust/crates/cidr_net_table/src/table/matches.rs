//! All rows whose key begins the look-up key.

use crate::search::{clipped, is_inside};
use crate::table::{LpmTable, lower_bound};
use cidr::names::{BitString, NetworkBits};
use core::iter::FusedIterator;

/// The rows of a table whose key begins the look-up key, the shortest key first. The call `matches` makes it.
pub struct Matches<'a, C: NetworkBits + Copy, V> {
    /// The rows that were not looked at.
    rows: &'a [(C, V)],
    asked: C,
}

impl<C: NetworkBits + Copy, V> LpmTable<C, V> {
    /// The rows whose key contains the look-up key, the shortest key first: routers call them covering or supernet
    /// routes.
    ///
    /// It allocates nothing. Each step takes a search for each set bit of the look-up key at most.
    ///
    /// ```
    /// # use cidr::names::{errors::*, *};
    /// # use cidr_table::{alloc::*, *};
    /// # type Routes = LpmTable<Ipv4Cidr, u32>;
    /// let rows = [("0.0.0.0/0".parse()?, 1), ("10.0.0.0/8".parse()?, 2), ("10.1.0.0/16".parse()?, 3)];
    /// let mut routes: Routes = rows.into_iter().collect();
    /// let mut covering = routes.matches(&"10.2.0.1".parse()?);
    /// assert_eq!(format!("{:?}", covering.next()), "Some((0.0.0.0/0, 1))");
    /// assert_eq!(format!("{:?}", covering.next()), "Some((10.0.0.0/8, 2))");
    /// assert_eq!(format!("{:?}", covering.next()), "None");
    /// # Ok::<(), Box<dyn std::error::Error>>(())
    /// ```
    #[inline]
    pub fn matches(&self, asked: &C) -> Matches<'_, C, V> {
        let rows = self.ascending();
        Matches {
            rows,
            asked: *asked,
        }
    }
}

impl<'a, C: NetworkBits + Copy, V> Iterator for Matches<'a, C, V> {
    type Item = &'a (C, V);

    #[inline]
    fn next(&mut self) -> Option<&'a (C, V)> {
        let (row, behind) = first_match(self.rows, &self.asked)?;
        self.rows = behind;
        Some(row)
    }
}

impl<'a, C: NetworkBits + Copy, V> FusedIterator for Matches<'a, C, V> {}

/// The first row whose key begins the look-up key, and the rows behind it.
fn first_match<'a, C: NetworkBits + Copy, V>(
    rows: &'a [(C, V)],
    asked: &C,
) -> Option<(&'a (C, V), &'a [(C, V)])> {
    let mut rest = rows;
    while let Some((row, behind)) = rest.split_first() {
        if is_inside(asked, &row.0) {
            return Some((row, behind));
        }
        if row.0.cmp(asked).is_gt() {
            return None;
        }
        // A key behind this one that begins the look-up key is longer than what this one shares with it.
        let shared = asked.shared_prefix_len(&row.0);
        let next = clipped(asked, shared.saturating_add(1));
        rest = &behind[lower_bound(behind, &next)..];
    }
    None
}
