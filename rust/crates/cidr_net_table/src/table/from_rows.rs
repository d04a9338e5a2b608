//! A table made of rows in any order.

use cidr_support::vec::Vec;
use crate::sorting::sort_rows;
use crate::table::LpmTable;
use cidr::names::NetworkBits;
use core::mem;

impl<C: NetworkBits + Copy, V> LpmTable<C, V> {
    /// The table of rows in any order. Of rows with equal keys the last one in the `Vec` counts, and the others are
    /// dropped.
    ///
    /// It never fails. The table keeps the `Vec`, so that its capacity is that of the `Vec`. O(n log n) comparisons of
    /// keys, 70 to 130 ns a row of IPv4 for a million of them; n - 1 for keys in ascending order, some 5 ns a row, for
    /// which it allocates nothing. Else it allocates room for as many rows while it sorts; where the allocation fails,
    /// it sorts in place, with O(n log² n) moves of rows.
    ///
    /// ```
    /// # use cidr::names::{errors::*, *};
    /// # use cidr_table::{alloc::*, *};
    /// # type Routes = LpmTable<Ipv4Cidr, u32>;
    /// let (one, other) = ("10.1.0.0/16".parse()?, "10.0.0.0/8".parse()?);
    /// let rows = Vec::from_array(Global, [(one, 1), (other, 2), (one, 3)]).map_err(|_| AllocError)?;
    /// let routes = Routes::from_rows(rows);
    /// assert_eq!(routes.len(), 2);
    /// assert_eq!(format!("{:?}", routes.iter().last()), "Some((10.1.0.0/16, 3))");
    /// # Ok::<(), Box<dyn std::error::Error>>(())
    /// ```
    #[inline]
    pub fn from_rows(mut rows: Vec<(C, V)>) -> Self {
        sort_rows(&mut rows);
        keep_last(&mut rows);
        LpmTable { rows }
    }
}

/// Leaves of the rows of each key the last one.
fn keep_last<C: NetworkBits + Copy, V>(rows: &mut Vec<(C, V)>) {
    rows.dedup_by(
        |row, kept| {
            let same = row.0 == kept.0;
            if same {
                mem::swap(row, kept);
            }
            same
        },
    );
}
