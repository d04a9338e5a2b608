//! Where the memory of a table comes from, and what collections of Rust have besides. Written by hand, not proved.
//!
//! The calls of a table take [`Global`] and return [`AllocError`] where no memory is left. The traits below have no place
//! for an error, and panic.
//!
//! ```
//! use cidr::Ipv4Cidr;
//! use cidr_table::LpmTable;
//!
//! let rows = [("10.0.0.0/8", 1), ("10.1.0.0/16", 2), ("10.0.0.0/8", 4)];
//! let rows = rows.map(|(network, value)| (network.parse::<Ipv4Cidr>().unwrap(), value));
//! let mut routes: LpmTable<_, _> = rows.into_iter().collect();
//! assert_eq!(format!("{routes:?}"), "{10.0.0.0/8: 4, 10.1.0.0/16: 2}");
//! routes.extend([("10.0.0.0/8".parse().unwrap(), 6), ("10.0.0.0/8".parse().unwrap(), 3)]);
//! assert_eq!(format!("{routes:?}"), "{10.0.0.0/8: 3, 10.1.0.0/16: 2}");
//! assert!(routes.clone() == routes && LpmTable::<Ipv4Cidr, u8>::default().is_empty());
//! ```

pub use cidr_support::alloc::{AllocError, Global};
pub use cidr_support::vec::Vec;

use crate::LpmTable;
use cidr::names::NetworkBits;

/// What a collection does where memory runs out and no error can be returned.
fn some_memory<T, E>(made: Result<T, E>) -> T {
    match made {
        Ok(value) => value,
        Err(_) => panic!("no memory for a table"),
    }
}

/// The empty table.
impl<C: NetworkBits + Copy, V> Default for LpmTable<C, V> {
    fn default() -> Self {
        LpmTable::new(Global)
    }
}

/// Copies by `try_clone`.
impl<C: NetworkBits + Copy, V: Clone> Clone for LpmTable<C, V> {
    fn clone(&self) -> Self {
        some_memory(self.try_clone())
    }
}

impl<C: NetworkBits + Copy, V: Eq> Eq for LpmTable<C, V> {}

/// Inserts each row. Of rows of one key the last counts.
impl<C: NetworkBits + Copy, V> Extend<(C, V)> for LpmTable<C, V> {
    fn extend<I: IntoIterator<Item = (C, V)>>(&mut self, rows: I) {
        for (key, value) in rows {
            some_memory(self.insert(key, value));
        }
    }
}

/// The table of some rows, which are sorted once. Of rows of one key the last counts.
impl<C: NetworkBits + Copy, V> FromIterator<(C, V)> for LpmTable<C, V> {
    fn from_iter<I: IntoIterator<Item = (C, V)>>(rows: I) -> Self {
        let mut list = Vec::new(Global);
        for row in rows {
            some_memory(list.push(row));
        }
        LpmTable::from_rows(list)
    }
}
