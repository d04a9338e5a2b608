//! Copies of a table.

use cidr_support::vec::Vec;
use crate::table::LpmTable;
use cidr::names::NetworkBits;
use cidr_support::alloc::{AllocError, Global};

impl<C: NetworkBits + Copy, V: Clone> LpmTable<C, V> {
    /// The same keys with a clone of each value. Fails where an allocation or the clone of a value does.
    ///
    /// ```
    /// # use cidr::names::{errors::*, *};
    /// # use cidr_table::{alloc::*, *};
    /// # type Routes = LpmTable<Ipv4Cidr, u32>;
    /// let routes: Routes = [("10.0.0.0/8".parse()?, 1)].into_iter().collect();
    /// assert_eq!(format!("{:?}", routes.try_clone()?.get(&"10.0.0.0/8".parse()?)), "Some(1)");
    /// # Ok::<(), Box<dyn std::error::Error>>(())
    /// ```
    ///
    /// # Errors
    ///
    /// `AllocError` where memory runs out.
    #[inline]
    pub fn try_clone(&self) -> Result<LpmTable<C, V>, AllocError> {
        let rows = clone_rows(self.rows.allocator().clone(), self.ascending())?;
        Ok(LpmTable { rows })
    }
}

/// The rows with a clone of each value.
#[inline]
fn clone_rows<C: NetworkBits + Copy, V: Clone>(
    alloc: Global,
    rows: &[(C, V)],
) -> Result<Vec<(C, V)>, AllocError> {
    let mut copy = Vec::with_capacity(alloc, rows.len())?;
    for row in rows {
        let value = row.1.clone();
        copy.push((row.0, value))?;
    }
    Ok(copy)
}
