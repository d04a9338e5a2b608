//! References to the values of a table, for writing.

use crate::table::LpmTable;
use cidr::NetworkBits;

impl<C: NetworkBits + Copy, V> LpmTable<C, V> {
    /// The value under exactly this key, for writing, or `None`. Binary search: O(log n). It allocates nothing.
    ///
    /// ```
    /// # use cidr::{errors::*, *};
    /// # use cidr_table::{alloc::*, *};
    /// # type Routes = LpmTable<Ipv4Cidr, u32>;
    /// let rows = [("0.0.0.0/0".parse()?, 1), ("10.0.0.0/8".parse()?, 2), ("10.1.0.0/16".parse()?, 3)];
    /// let mut routes: Routes = rows.into_iter().collect();
    /// if let Some(value) = routes.get_mut(&"10.1.0.0/16".parse()?) {
    ///     *value = 3;
    /// }
    /// assert_eq!(format!("{:?}", routes.get(&"10.1.0.0/16".parse()?)), "Some(3)");
    /// # Ok::<(), Box<dyn std::error::Error>>(())
    /// ```
    #[inline]
    pub fn get_mut(&mut self, key: &C) -> Option<&mut V> {
        match self.find(key) {
            Ok(index) => Some(self.value_at(index)),
            Err(_) => None,
        }
    }

    /// The value of the row that `lookup` returns, for writing, or `None` where no key contains the look-up key. It
    /// takes as long as `lookup` and `get_mut` together, and allocates nothing.
    ///
    /// ```
    /// # use cidr::{errors::*, *};
    /// # use cidr_table::{alloc::*, *};
    /// # type Routes = LpmTable<Ipv4Cidr, u32>;
    /// let rows = [("0.0.0.0/0".parse()?, 1), ("10.0.0.0/8".parse()?, 2), ("10.1.0.0/16".parse()?, 3)];
    /// let mut routes: Routes = rows.into_iter().collect();
    /// if let Some(hits) = routes.lookup_mut(&"10.2.0.1".parse()?) {
    ///     *hits = hits.wrapping_add(7);
    /// }
    /// assert_eq!(format!("{:?}", routes.get(&"10.0.0.0/8".parse()?)), "Some(9)");
    /// # Ok::<(), Box<dyn std::error::Error>>(())
    /// ```
    #[inline]
    pub fn lookup_mut(&mut self, asked: &C) -> Option<&mut V> {
        let key = self.lookup(asked)?.0;
        self.get_mut(&key)
    }

    /// The value of the row at an index, for writing, or `None` from the number of rows on. `row` returns its key.
    ///
    /// Each takes the same time, O(1), so that a loop over the indices may write all values, also where it is to stop
    /// early.
    ///
    /// ```
    /// # use cidr::{errors::*, *};
    /// # use cidr_table::{alloc::*, *};
    /// # type Routes = LpmTable<Ipv4Cidr, u32>;
    /// let rows = [("0.0.0.0/0".parse()?, 1), ("10.0.0.0/8".parse()?, 2), ("10.1.0.0/16".parse()?, 3)];
    /// let mut routes: Routes = rows.into_iter().collect();
    /// for index in 0..routes.len() {
    ///     if let Some(hits) = routes.value_mut(index) {
    ///         *hits = hits.wrapping_add(1);
    ///     }
    /// }
    /// # Ok::<(), Box<dyn std::error::Error>>(())
    /// ```
    #[inline]
    pub fn value_mut(&mut self, index: usize) -> Option<&mut V> {
        if index < self.len() {
            Some(self.value_at(index))
        } else {
            None
        }
    }

    /// Calls `write` once with each key and its value, in the order of the keys: it may write the value. It has to be
    /// callable for every row, as a closure with no condition of its own is. Nothing is allocated.
    ///
    /// ```
    /// # use cidr::{errors::*, *};
    /// # use cidr_table::{alloc::*, *};
    /// # type Routes = LpmTable<Ipv4Cidr, u32>;
    /// let mut routes: Routes = [("10.0.0.0/8".parse()?, 9)].into_iter().collect();
    /// routes.for_each_mut(|_, hits| *hits = (*hits).min(7));
    /// assert_eq!(format!("{:?}", routes.get(&"10.0.0.0/8".parse()?)), "Some(7)");
    /// # Ok::<(), Box<dyn std::error::Error>>(())
    /// ```
    #[inline]
    pub fn for_each_mut<F: FnMut(&C, &mut V)>(&mut self, write: F) {
        write_each(&mut self.rows, write);
    }

    /// The value of the row at an index, which there is.
    #[inline]
    fn value_at(&mut self, index: usize) -> &mut V {
        let row = &mut self.rows[index];
        &mut row.1
    }
}

/// Calls `write` with each key and its value.
#[inline]
fn write_each<C, V, F: FnMut(&C, &mut V)>(rows: &mut [(C, V)], mut write: F) {
    for index in 0..rows.len() {
        let row = &mut rows[index];
        write(&row.0, &mut row.1);
    }
}
