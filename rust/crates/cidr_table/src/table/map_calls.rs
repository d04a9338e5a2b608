//! The calls that every map has.

use crate::table::{LpmTable, is_row_inside};
use cidr::NetworkBits;
use cidr_support::alloc::AllocError;

impl<C: NetworkBits + Copy, V> LpmTable<C, V> {
    /// Whether exactly this key is in the table. Binary search: O(log n).
    ///
    /// ```
    /// # use cidr::{errors::*, *};
    /// # use cidr_table::{alloc::*, *};
    /// # type Routes = LpmTable<Ipv4Cidr, u32>;
    /// let rows = [("0.0.0.0/0".parse()?, 1), ("10.0.0.0/8".parse()?, 2), ("10.1.0.0/16".parse()?, 3)];
    /// let mut routes: Routes = rows.into_iter().collect();
    /// assert!(routes.contains_key(&"10.0.0.0/8".parse()?));
    /// # Ok::<(), Box<dyn std::error::Error>>(())
    /// ```
    #[inline]
    pub fn contains_key(&self, key: &C) -> bool {
        self.get(key).is_some()
    }

    /// The first row in the order of the keys, or `None` of an empty table.
    ///
    /// ```
    /// # use cidr::{errors::*, *};
    /// # use cidr_table::{alloc::*, *};
    /// # type Routes = LpmTable<Ipv4Cidr, u32>;
    /// let rows = [("0.0.0.0/0".parse()?, 1), ("10.0.0.0/8".parse()?, 2), ("10.1.0.0/16".parse()?, 3)];
    /// let mut routes: Routes = rows.into_iter().collect();
    /// assert_eq!(format!("{:?}", routes.first_key_value()), "Some((0.0.0.0/0, 1))");
    /// # Ok::<(), Box<dyn std::error::Error>>(())
    /// ```
    #[inline]
    pub fn first_key_value(&self) -> Option<(&C, &V)> {
        let row = self.row(0)?;
        Some((&row.0, &row.1))
    }

    /// The last row in the order of the keys, or `None` of an empty table.
    ///
    /// ```
    /// # use cidr::{errors::*, *};
    /// # use cidr_table::{alloc::*, *};
    /// # type Routes = LpmTable<Ipv4Cidr, u32>;
    /// let rows = [("0.0.0.0/0".parse()?, 1), ("10.0.0.0/8".parse()?, 2), ("10.1.0.0/16".parse()?, 3)];
    /// let mut routes: Routes = rows.into_iter().collect();
    /// assert_eq!(format!("{:?}", routes.last_key_value()), "Some((10.1.0.0/16, 3))");
    /// # Ok::<(), Box<dyn std::error::Error>>(())
    /// ```
    #[inline]
    pub fn last_key_value(&self) -> Option<(&C, &V)> {
        let row = self.row(self.len().saturating_sub(1))?;
        Some((&row.0, &row.1))
    }
}

impl<C: NetworkBits + Copy, V> LpmTable<C, V> {
    /// The same as `insert`, for use with `?`: where the allocation fails, the key and the value are dropped.
    ///
    /// ```
    /// # use cidr::{errors::*, *};
    /// # use cidr_table::{alloc::*, *};
    /// # type Routes = LpmTable<Ipv4Cidr, u32>;
    /// let rows = [("0.0.0.0/0".parse()?, 1), ("10.0.0.0/8".parse()?, 2), ("10.1.0.0/16".parse()?, 3)];
    /// let mut routes: Routes = rows.into_iter().collect();
    /// assert_eq!(format!("{:?}", routes.set("10.1.0.0/16".parse()?, 4)?), "Some(3)");
    /// # Ok::<(), Box<dyn std::error::Error>>(())
    /// ```
    ///
    /// # Errors
    ///
    /// `AllocError` where memory runs out.
    #[inline]
    pub fn set(&mut self, key: C, value: V) -> Result<Option<V>, AllocError> {
        match self.insert(key, value) {
            Ok(before) => Ok(before),
            Err(_) => Err(AllocError),
        }
    }

    /// Removes all rows. The room for them stays.
    ///
    /// ```
    /// # use cidr::{errors::*, *};
    /// # use cidr_table::{alloc::*, *};
    /// # type Routes = LpmTable<Ipv4Cidr, u32>;
    /// let rows = [("0.0.0.0/0".parse()?, 1), ("10.0.0.0/8".parse()?, 2), ("10.1.0.0/16".parse()?, 3)];
    /// let mut routes: Routes = rows.into_iter().collect();
    /// routes.clear();
    /// assert!(routes.is_empty());
    /// # Ok::<(), Box<dyn std::error::Error>>(())
    /// ```
    #[inline]
    pub fn clear(&mut self) {
        self.rows.clear();
    }

    /// Removes the rows for which `keep` returns `false`. It is called once with each row, in the order of the keys,
    /// and has to be callable for every row, as a closure with no condition of its own is.
    ///
    /// It takes one pass over the rows, allocates nothing, and the room for the rows stays.
    ///
    /// ```
    /// # use cidr::{errors::*, *};
    /// # use cidr_table::{alloc::*, *};
    /// # type Routes = LpmTable<Ipv4Cidr, u32>;
    /// let mut routes: Routes = [("10.0.0.0/8".parse()?, 1)].into_iter().collect();
    /// routes.retain(|row| row.1 != 1);
    /// assert_eq!(routes.len(), 0);
    /// # Ok::<(), Box<dyn std::error::Error>>(())
    /// ```
    #[inline]
    pub fn retain<F: FnMut(&(C, V)) -> bool>(&mut self, keep: F) {
        self.rows.retain(keep);
    }

    /// Removes the rows whose key is in the outer network, which may be a key itself, and returns how many there were.
    ///
    /// It takes one pass over the rows, allocates nothing, and the room for the rows stays.
    ///
    /// ```
    /// # use cidr::{errors::*, *};
    /// # use cidr_table::{alloc::*, *};
    /// # type Routes = LpmTable<Ipv4Cidr, u32>;
    /// let rows = [("0.0.0.0/0".parse()?, 1), ("10.0.0.0/8".parse()?, 2), ("10.1.0.0/16".parse()?, 3)];
    /// let mut routes: Routes = rows.into_iter().collect();
    /// assert_eq!(routes.remove_inside(&"10.0.0.0/8".parse()?), 2);
    /// # Ok::<(), Box<dyn std::error::Error>>(())
    /// ```
    #[inline]
    pub fn remove_inside(&mut self, outer: &C) -> usize {
        let before = self.rows.len();
        self.rows.retain(|row| !is_row_inside(row, outer));
        before - self.rows.len()
    }
}
