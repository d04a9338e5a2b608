//! The smallest tables, as calls of a table.

use cidr_support::vec::Vec;
use crate::plan::{smallest_holed, smallest_rows};
use cidr::NetworkBits;
use cidr_table::LpmTable;
use cidr_support::alloc::{AllocError, Global};

/// The smallest tables with the same forwarding as a table, as calls of `LpmTable`. The caller has to ensure that `==` of
/// the values tells equality.
pub trait SmallestTable<C: NetworkBits + Copy, V: Copy + Ord>: Sized {
    /// A smallest table with the same forwarding: each address has the same value in both, or in neither one, and no
    /// table of fewer rows has that. No address without a value gets one.
    ///
    /// It goes twice through the rows, in a time that grows with their number and their bits, 110 to 170 ns a row for
    /// tables like those of routers and of GeoIP. Beside the new table and a copy of its rows it takes memory for both
    /// passes, 36 bytes a row where values have four and few networks have many candidates, and frees it. The error is
    /// that an allocation fails; the table stays as it is.
    ///
    /// ```
    /// # use cidr::*;
    /// # use cidr_table::*;
    /// # use cidr_support::alloc::Global;
    /// # use cidr_forwarding::*;
    /// let rows = [("0.0.0.0/0".parse()?, 1), ("10.0.0.0/8".parse()?, 2), ("10.1.0.0/16".parse()?, 2),
    ///             ("192.0.2.0/25".parse()?, 3), ("192.0.2.128/25".parse()?, 3)];
    /// let mut routes: LpmTable<Ipv4Cidr, u32> = rows.into_iter().collect();
    /// let smallest = routes.smallest(Global)?;
    /// assert_eq!(format!("{:?}", smallest), "{0.0.0.0/0: 1, 10.0.0.0/8: 2, 192.0.2.0/24: 3}");
    /// assert_eq!(format!("{:?}", routes.lookup(&"10.1.2.3".parse()?)), "Some((10.1.0.0/16, 2))");
    /// assert_eq!(format!("{:?}", smallest.lookup(&"10.1.2.3".parse()?)), "Some((10.0.0.0/8, 2))");
    /// # Ok::<(), Box<dyn std::error::Error>>(())
    /// ```
    ///
    /// # Errors
    ///
    /// `AllocError` where memory runs out.
    fn smallest(&self, alloc: Global) -> Result<LpmTable<C, V>, AllocError>;

    /// The same, in the same time, where a row may be a hole: with the value `None`, its addresses have no value.
    /// Routers write holes as discard routes. No table of fewer rows and holes has the same forwarding.
    ///
    /// ```
    /// # use cidr::*;
    /// # use cidr_table::*;
    /// # use cidr_support::alloc::Global;
    /// # use cidr_forwarding::*;
    /// let rows = [("10.0.0.0/9".parse()?, 1), ("10.128.0.0/10".parse()?, 1), ("10.192.0.0/11".parse()?, 1)];
    /// let routes: LpmTable<Ipv4Cidr, u32> = rows.into_iter().collect();
    /// let smallest = routes.smallest_with_holes(Global)?;
    /// assert_eq!(format!("{:?}", smallest), "{10.0.0.0/8: Some(1), 10.224.0.0/11: None}");
    /// # Ok::<(), Box<dyn std::error::Error>>(())
    /// ```
    ///
    /// # Errors
    ///
    /// `AllocError` where memory runs out.
    fn smallest_with_holes(&self, alloc: Global) -> Result<LpmTable<C, Option<V>>, AllocError>;
}

impl<C: NetworkBits + Copy, V: Copy + Ord> SmallestTable<C, V> for LpmTable<C, V> {
    #[inline]
    fn smallest(&self, alloc: Global) -> Result<LpmTable<C, V>, AllocError> {
        let rows = smallest_rows(alloc, rows_of(self))?;
        Ok(table_of(rows))
    }

    #[inline]
    fn smallest_with_holes(&self, alloc: Global) -> Result<LpmTable<C, Option<V>>, AllocError> {
        let rows = smallest_holed(alloc, rows_of(self))?;
        Ok(table_of(rows))
    }
}

/// The rows of a table.
#[inline]
pub(crate) fn rows_of<C: NetworkBits + Copy, V>(table: &LpmTable<C, V>) -> &[(C, V)] {
    table.iter().as_slice()
}

/// The table of rows that ascend.
#[inline]
fn table_of<C: NetworkBits + Copy, V>(rows: Vec<(C, V)>) -> LpmTable<C, V> {
    LpmTable::from_rows(rows)
}
