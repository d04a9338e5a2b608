//! The table: its rows ascend by their keys.

use cidr_support::vec::Vec;
use crate::rows::Rows;
use crate::search::{is_inside, search};
use cidr::names::NetworkBits;
use cidr_support::alloc::{AllocError, Global};
use core::mem;
use core::slice::Iter;

mod clones;
pub mod cover;
mod debug;
mod from_rows;
pub mod iterators;
mod lends;
pub mod load;
mod lookups;
mod map_calls;
pub mod matches;

/// A finite map from networks to values, for longest-prefix matching. A key with its value is a row.
///
/// The rows are kept in one `Vec`, in the order of the keys, which is that of their bits. `insert` and `remove` of one
/// key shift the rows after it, O(n), so that n inserts in random order take O(n²). Many rows are best given at once,
/// to `from_rows` or, as prefix bytes, to `load`. Beside the rows a table keeps nothing.
pub struct LpmTable<C: NetworkBits + Copy, V> {
    rows: Vec<(C, V)>,
}

impl<C: NetworkBits + Copy, V> LpmTable<C, V> {
    /// The empty table. It allocates nothing.
    ///
    /// ```
    /// # use cidr::names::{errors::*, *};
    /// # use cidr_table::{alloc::*, *};
    /// # type Routes = LpmTable<Ipv4Cidr, u32>;
    /// assert!(LpmTable::<Ipv4Cidr, u32>::new(Global).is_empty());
    /// # Ok::<(), Box<dyn std::error::Error>>(())
    /// ```
    #[inline]
    pub fn new(alloc: Global) -> Self {
        LpmTable {
            rows: Vec::new(alloc),
        }
    }

    /// The empty table with room for `capacity` rows: up to that number, `insert` allocates nothing. An error where the
    /// allocation fails; a capacity of 0 takes none.
    ///
    /// ```
    /// # use cidr::names::{errors::*, *};
    /// # use cidr_table::{alloc::*, *};
    /// # type Routes = LpmTable<Ipv4Cidr, u32>;
    /// let mut routes = Routes::with_capacity(Global, 3)?;
    /// assert_eq!(routes.capacity(), 3);
    /// # Ok::<(), Box<dyn std::error::Error>>(())
    /// ```
    ///
    /// # Errors
    ///
    /// `AllocError` where memory runs out.
    #[inline]
    pub fn with_capacity(alloc: Global, capacity: usize) -> Result<Self, AllocError> {
        let rows = Vec::with_capacity(alloc, capacity)?;
        Ok(LpmTable { rows })
    }

    /// How many rows the table has room for: up to that number, `insert` allocates nothing.
    ///
    /// ```
    /// # use cidr::names::{errors::*, *};
    /// # use cidr_table::{alloc::*, *};
    /// # type Routes = LpmTable<Ipv4Cidr, u32>;
    /// let mut routes = Routes::with_capacity(Global, 3)?;
    /// assert_eq!(routes.capacity(), 3);
    /// # Ok::<(), Box<dyn std::error::Error>>(())
    /// ```
    #[inline]
    pub fn capacity(&self) -> usize {
        self.rows.capacity()
    }

    /// Makes room for `additional` more rows. It allocates nothing where there is that room, and may make more. Where
    /// the allocation fails, nothing changes.
    ///
    /// ```
    /// # use cidr::names::{errors::*, *};
    /// # use cidr_table::{alloc::*, *};
    /// # type Routes = LpmTable<Ipv4Cidr, u32>;
    /// let rows = [("0.0.0.0/0".parse()?, 1), ("10.0.0.0/8".parse()?, 2), ("10.1.0.0/16".parse()?, 3)];
    /// let mut routes: Routes = rows.into_iter().collect();
    /// routes.reserve(1)?;
    /// assert!(routes.capacity() > 3);
    /// # Ok::<(), Box<dyn std::error::Error>>(())
    /// ```
    ///
    /// # Errors
    ///
    /// `AllocError` where memory runs out.
    #[inline]
    pub fn reserve(&mut self, additional: usize) -> Result<(), AllocError> {
        self.rows.reserve(additional)
    }

    /// The index of the key, or that before which it would stand.
    #[inline]
    fn find(&self, key: &C) -> Result<usize, usize> {
        search(&mut self.probe(), key, self.rows.len())
    }

    /// The rows, which ascend.
    #[inline]
    fn ascending(&self) -> &[(C, V)] {
        self.rows.as_slice()
    }

    /// The value under exactly this key, or `None`; for the longest key that an address is in, use
    /// [`longest_match`](crate::longest_match). Binary search: O(log n).
    ///
    /// ```
    /// # use cidr::names::{errors::*, *};
    /// # use cidr_table::{alloc::*, *};
    /// # type Routes = LpmTable<Ipv4Cidr, u32>;
    /// let mut routes = LpmTable::<Ipv4Cidr, u32>::new(Global);
    /// assert_eq!(format!("{:?}", routes.insert("10.0.0.0/8".parse()?, 1)), "Ok(None)");
    /// assert_eq!(format!("{:?}", routes.get(&"10.0.0.0/8".parse()?)), "Some(1)");
    /// assert_eq!(format!("{:?}", routes.get(&"10.0.0.0/9".parse()?)), "None");
    /// # Ok::<(), Box<dyn std::error::Error>>(())
    /// ```
    #[inline]
    pub fn get(&self, key: &C) -> Option<&V> {
        match self.find(key) {
            Ok(index) => {
                let row = &self.rows[index];
                Some(&row.1)
            }
            Err(_) => None,
        }
    }

    /// Sets the value under a key and returns the one that was there, or `None` where there was none.
    ///
    /// A new key shifts the rows after it, O(n), some 38 µs among 100,000 rows of 12 bytes and 550 µs among 900,000 (a
    /// vector of Rust takes 12 and 300), and allocates where there is no room for one more row, see `capacity`.
    /// `from_rows` takes many rows at once.
    /// Where an allocation fails, it returns the key and the value as the error and the rows are as they were.
    /// Replacing a value never fails and takes no memory.
    ///
    /// ```
    /// # use cidr::names::{errors::*, *};
    /// # use cidr_table::{alloc::*, *};
    /// # type Routes = LpmTable<Ipv4Cidr, u32>;
    /// let mut routes = LpmTable::<Ipv4Cidr, u32>::new(Global);
    /// assert_eq!(format!("{:?}", routes.insert("10.0.0.0/8".parse()?, 1)), "Ok(None)");
    /// assert_eq!(format!("{:?}", routes.insert("10.0.0.0/8".parse()?, 2)), "Ok(Some(1))");
    /// # Ok::<(), Box<dyn std::error::Error>>(())
    /// ```
    ///
    /// # Errors
    ///
    /// The key and the value, where memory runs out; the table stays as it was.
    pub fn insert(&mut self, key: C, value: V) -> Result<Option<V>, (C, V)> {
        match self.find(&key) {
            Ok(index) => {
                let row = &mut self.rows[index];
                Ok(Some(mem::replace(&mut row.1, value)))
            }
            Err(index) => {
                if let Err(refused) = self.rows.insert(index, (key, value)) {
                    return Err(refused.value);
                }
                Ok(None)
            }
        }
    }

    /// Removes a key and returns the value that was under it, or `None` where there was none. It shifts the rows after
    /// the key, O(n), in the time of an `insert`, and frees no memory. `retain` and `remove_inside` remove many at
    /// once.
    ///
    /// ```
    /// # use cidr::names::{errors::*, *};
    /// # use cidr_table::{alloc::*, *};
    /// # type Routes = LpmTable<Ipv4Cidr, u32>;
    /// let mut routes = LpmTable::<Ipv4Cidr, u32>::new(Global);
    /// assert_eq!(format!("{:?}", routes.insert("10.0.0.0/8".parse()?, 1)), "Ok(None)");
    /// assert_eq!(format!("{:?}", routes.remove(&"10.0.0.0/8".parse()?)), "Some(1)");
    /// assert_eq!(format!("{:?}", routes.remove(&"10.0.0.0/8".parse()?)), "None");
    /// # Ok::<(), Box<dyn std::error::Error>>(())
    /// ```
    #[inline]
    pub fn remove(&mut self, key: &C) -> Option<V> {
        match self.find(key) {
            Ok(index) => {
                let (_, value) = self.rows.remove(index);
                Some(value)
            }
            Err(_) => None,
        }
    }

    /// The rows as a probe, for [`longest_match`](crate::longest_match). It borrows the table, copies nothing, and has
    /// made no comparison.
    ///
    /// ```
    /// # use cidr::names::{errors::*, *};
    /// # use cidr_table::{alloc::*, *};
    /// # type Routes = LpmTable<Ipv4Cidr, u32>;
    /// let mut routes = LpmTable::<Ipv4Cidr, u32>::new(Global);
    /// assert_eq!(format!("{:?}", routes.insert("0.0.0.0/0".parse()?, 1)), "Ok(None)");
    /// let mut rows = routes.probe();
    /// assert_eq!(format!("{:?}", longest_match(&mut rows, &"192.0.2.1".parse()?)), "Some(0)");
    /// # Ok::<(), Box<dyn std::error::Error>>(())
    /// ```
    #[inline]
    pub fn probe(&self) -> Rows<'_, C, V> {
        Rows::new(self.rows.as_slice())
    }

    /// The number of rows.
    ///
    /// ```
    /// # use cidr::names::{errors::*, *};
    /// # use cidr_table::{alloc::*, *};
    /// # type Routes = LpmTable<Ipv4Cidr, u32>;
    /// let mut routes = LpmTable::<Ipv4Cidr, u32>::new(Global);
    /// assert_eq!(format!("{:?}", routes.insert("10.0.0.0/8".parse()?, 1)), "Ok(None)");
    /// assert_eq!(routes.len(), 1);
    /// # Ok::<(), Box<dyn std::error::Error>>(())
    /// ```
    #[inline]
    pub fn len(&self) -> usize {
        self.rows.len()
    }

    /// Whether there are no rows.
    ///
    /// ```
    /// # use cidr::names::{errors::*, *};
    /// # use cidr_table::{alloc::*, *};
    /// # type Routes = LpmTable<Ipv4Cidr, u32>;
    /// let mut routes = LpmTable::<Ipv4Cidr, u32>::new(Global);
    /// assert_eq!(format!("{:?}", routes.insert("10.0.0.0/8".parse()?, 1)), "Ok(None)");
    /// assert!(!routes.is_empty());
    /// # Ok::<(), Box<dyn std::error::Error>>(())
    /// ```
    #[inline]
    pub fn is_empty(&self) -> bool {
        self.rows.is_empty()
    }

    /// The rows in the order of their keys, from both ends: a network comes before those inside it.
    ///
    /// ```
    /// # use cidr::names::{errors::*, *};
    /// # use cidr_table::{alloc::*, *};
    /// # type Routes = LpmTable<Ipv4Cidr, u32>;
    /// let mut routes = LpmTable::<Ipv4Cidr, u32>::new(Global);
    /// assert_eq!(format!("{:?}", routes.insert("10.0.0.0/8".parse()?, 1)), "Ok(None)");
    /// assert_eq!(format!("{:?}", routes.iter().next()), "Some((10.0.0.0/8, 1))");
    /// # Ok::<(), Box<dyn std::error::Error>>(())
    /// ```
    #[inline]
    pub fn iter(&self) -> Iter<'_, (C, V)> {
        self.rows.iter()
    }

    /// The row at an index, counted from 0 in the order of the keys, or `None` from the number of rows on. The indices
    /// change with each `insert` of a new key and each row that is removed.
    ///
    /// ```
    /// # use cidr::names::{errors::*, *};
    /// # use cidr_table::{alloc::*, *};
    /// # type Routes = LpmTable<Ipv4Cidr, u32>;
    /// let mut routes = LpmTable::<Ipv4Cidr, u32>::new(Global);
    /// assert_eq!(format!("{:?}", routes.insert("10.0.0.0/8".parse()?, 1)), "Ok(None)");
    /// assert_eq!(format!("{:?}", routes.row(0)), "Some((10.0.0.0/8, 1))");
    /// assert_eq!(format!("{:?}", routes.row(1)), "None");
    /// # Ok::<(), Box<dyn std::error::Error>>(())
    /// ```
    #[inline]
    pub fn row(&self, index: usize) -> Option<&(C, V)> {
        self.rows.get(index)
    }

    /// The rows whose key is in the outer network, which may be a key itself, in the order of the keys: as they stand
    /// next to each other, part of the table itself. Two binary searches: O(log n).
    ///
    /// ```
    /// # use cidr::names::{errors::*, *};
    /// # use cidr_table::{alloc::*, *};
    /// # type Routes = LpmTable<Ipv4Cidr, u32>;
    /// let mut routes = LpmTable::<Ipv4Cidr, u32>::new(Global);
    /// assert_eq!(format!("{:?}", routes.insert("10.0.0.0/8".parse()?, 1)), "Ok(None)");
    /// assert_eq!(format!("{:?}", routes.insert("10.1.0.0/16".parse()?, 2)), "Ok(None)");
    /// assert_eq!(format!("{:?}", routes.inside(&"10.0.0.0/9".parse()?)), "[(10.1.0.0/16, 2)]");
    /// # Ok::<(), Box<dyn std::error::Error>>(())
    /// ```
    #[inline]
    pub fn inside(&self, outer: &C) -> &[(C, V)] {
        let rows = self.ascending();
        let from = &rows[lower_bound(rows, outer)..];
        let len = from.partition_point(|row| is_row_inside(row, outer));
        &from[..len]
    }
}

/// How many keys of rows that ascend come before this one.
#[inline]
fn lower_bound<C: NetworkBits, V>(rows: &[(C, V)], key: &C) -> usize {
    let (Ok(index) | Err(index)) = search(&mut Rows::new(rows), key, rows.len());
    index
}

/// Whether the key of a row is in the outer network.
#[inline]
fn is_row_inside<C: NetworkBits, V>(row: &(C, V), outer: &C) -> bool {
    is_inside(&row.0, outer)
}
