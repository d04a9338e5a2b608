//! What a search asks for: how the keys of a table compare with one that is sought.

use core::cmp::Ordering;

/// The one way to the keys of a table: their number, and comparisons with them. The count of these is for the contracts
/// and takes no memory.
///
/// A type of yours that keeps ascending keys, as a file or a part of memory, gets `longest_match` by implementing it.
/// The trait itself doesn't ask that the keys ascend: `longest_match` does, of its caller.
pub trait Probe<C: Ord>: Sized {
    /// The number of keys.
    ///
    /// ```
    /// # use cidr::names::{errors::*, *};
    /// # use cidr_table::{alloc::*, *};
    /// # type Routes = LpmTable<Ipv4Cidr, u32>;
    /// let routes = LpmTable::<Ipv4Cidr, u32>::new(Global);
    /// assert_eq!(routes.probe().len(), 0);
    /// # Ok::<(), Box<dyn std::error::Error>>(())
    /// ```
    fn len(&self) -> usize;

    /// How the key at index `i`, counted from 0, compares with `key`: `Less` where it comes before `key`. The caller
    /// has to ensure that `i` is below the number of keys.
    ///
    /// ```
    /// # use cidr::names::{errors::*, *};
    /// # use cidr_table::{alloc::*, *};
    /// # type Routes = LpmTable<Ipv4Cidr, u32>;
    /// let mut routes = LpmTable::<Ipv4Cidr, u32>::new(Global);
    /// assert_eq!(format!("{:?}", routes.insert("10.0.0.0/8".parse()?, 1)), "Ok(None)");
    /// let mut rows = routes.probe();
    /// if 0 < rows.len() {
    ///     assert_eq!(format!("{:?}", rows.compare(0, &"11.0.0.0/8".parse()?)), "Less");
    /// }
    /// # Ok::<(), Box<dyn std::error::Error>>(())
    /// ```
    ///
    /// # Panics
    ///
    /// Where an index is not below the length.
    fn compare(&mut self, i: usize, key: &C) -> Ordering;
}
