//! The keys, the values and the rows of a table one by one, and the equality of tables.

use crate::table::LpmTable;
use cidr::names::NetworkBits;
use cidr_support::alloc::Global;
use core::iter::FusedIterator;
use core::slice::Iter;
use cidr_support::vec;

/// The keys of a table that are left, ascending. The call `keys` makes it.
pub struct Keys<'a, C, V> {
    rows: &'a [(C, V)],
}

impl<'a, C, V> Iterator for Keys<'a, C, V> {
    type Item = &'a C;

    #[inline]
    fn next(&mut self) -> Option<&'a C> {
        let (row, behind) = self.rows.split_first()?;
        self.rows = behind;
        Some(&row.0)
    }
}

impl<'a, C, V> DoubleEndedIterator for Keys<'a, C, V> {
    #[inline]
    fn next_back(&mut self) -> Option<&'a C> {
        let (row, before) = self.rows.split_last()?;
        self.rows = before;
        Some(&row.0)
    }
}

impl<'a, C, V> FusedIterator for Keys<'a, C, V> {}

/// The values of a table that are left, in the order of their keys. The call `values` makes it.
pub struct Values<'a, C, V> {
    rows: &'a [(C, V)],
}

impl<'a, C, V> Iterator for Values<'a, C, V> {
    type Item = &'a V;

    #[inline]
    fn next(&mut self) -> Option<&'a V> {
        let (row, behind) = self.rows.split_first()?;
        self.rows = behind;
        Some(&row.1)
    }
}

impl<'a, C, V> DoubleEndedIterator for Values<'a, C, V> {
    #[inline]
    fn next_back(&mut self) -> Option<&'a V> {
        let (row, before) = self.rows.split_last()?;
        self.rows = before;
        Some(&row.1)
    }
}

impl<'a, C, V> FusedIterator for Values<'a, C, V> {}

/// The rows of a table that are left, by value, in the order of their keys. The call `into_iter` of `LpmTable` makes
/// it.
pub struct IntoIter<C, V> {
    rows: vec::IntoIter<(C, V), Global>,
}

impl<C, V> Iterator for IntoIter<C, V> {
    type Item = (C, V);

    #[inline]
    fn next(&mut self) -> Option<(C, V)> {
        self.rows.next()
    }
}

impl<C, V> DoubleEndedIterator for IntoIter<C, V> {
    #[inline]
    fn next_back(&mut self) -> Option<(C, V)> {
        self.rows.next_back()
    }
}

impl<C, V> ExactSizeIterator for IntoIter<C, V> {
    #[inline]
    fn len(&self) -> usize {
        self.rows.len()
    }
}

impl<C, V> FusedIterator for IntoIter<C, V> {}

impl<C: NetworkBits + Copy, V> LpmTable<C, V> {
    /// The keys, ascending, from both ends.
    ///
    /// ```
    /// # use cidr::names::{errors::*, *};
    /// # use cidr_table::{alloc::*, *};
    /// # type Routes = LpmTable<Ipv4Cidr, u32>;
    /// let rows = [("0.0.0.0/0".parse()?, 1), ("10.0.0.0/8".parse()?, 2), ("10.1.0.0/16".parse()?, 3)];
    /// let mut routes: Routes = rows.into_iter().collect();
    /// let mut keys = routes.keys();
    /// assert_eq!(format!("{:?}", keys.next_back()), "Some(10.1.0.0/16)");
    /// # Ok::<(), Box<dyn std::error::Error>>(())
    /// ```
    #[inline]
    pub fn keys(&self) -> Keys<'_, C, V> {
        Keys {
            rows: self.ascending(),
        }
    }

    /// The values in the order of their keys, from both ends.
    ///
    /// ```
    /// # use cidr::names::{errors::*, *};
    /// # use cidr_table::{alloc::*, *};
    /// # type Routes = LpmTable<Ipv4Cidr, u32>;
    /// let rows = [("0.0.0.0/0".parse()?, 1), ("10.0.0.0/8".parse()?, 2), ("10.1.0.0/16".parse()?, 3)];
    /// let mut routes: Routes = rows.into_iter().collect();
    /// let mut values = routes.values();
    /// assert_eq!(format!("{:?}", values.next()), "Some(1)");
    /// # Ok::<(), Box<dyn std::error::Error>>(())
    /// ```
    #[inline]
    pub fn values(&self) -> Values<'_, C, V> {
        Values {
            rows: self.ascending(),
        }
    }
}

impl<'a, C: NetworkBits + Copy, V> IntoIterator for &'a LpmTable<C, V> {
    type Item = &'a (C, V);

    type IntoIter = Iter<'a, (C, V)>;

    #[inline]
    fn into_iter(self) -> Iter<'a, (C, V)> {
        self.iter()
    }
}

impl<C: NetworkBits + Copy, V> IntoIterator for LpmTable<C, V> {
    type Item = (C, V);

    type IntoIter = IntoIter<C, V>;

    /// The rows by value, in the order of their keys, from both ends. It allocates nothing.
    ///
    /// ```
    /// # use cidr::names::{errors::*, *};
    /// # use cidr_table::{alloc::*, *};
    /// # type Routes = LpmTable<Ipv4Cidr, u32>;
    /// let routes: Routes = [("0.0.0.0/0".parse()?, 1), ("10.0.0.0/8".parse()?, 2)].into_iter().collect();
    /// let mut rows = routes.into_iter();
    /// assert_eq!(format!("{:?}", rows.next_back()), "Some((10.0.0.0/8, 2))");
    /// assert_eq!(rows.len(), 1);
    /// # Ok::<(), Box<dyn std::error::Error>>(())
    /// ```
    #[inline]
    fn into_iter(self) -> IntoIter<C, V> {
        let LpmTable { rows } = self;
        IntoIter {
            rows: rows.into_iter(),
        }
    }
}

/// Two tables are equal if they have the same keys, each with an equal value. O(n).
impl<C: NetworkBits + Copy, V: PartialEq> PartialEq for LpmTable<C, V> {
    #[inline]
    fn eq(&self, other: &LpmTable<C, V>) -> bool {
        self.rows == other.rows
    }
}
