//! Lists of networks, made ready for look-ups.

use cidr_support::vec::Vec;
use crate::keyed::Keyed;
use crate::ready::ReadyTable;
use crate::table::TableError;
use cidr_table::LpmTable;
use cidr_support::alloc::{AllocError, Global};

/// Networks made ready for look-ups: whether an address is in one of them is one look-up, as in a
/// [`ReadyTable`](crate::ReadyTable). It keeps the networks, each once, beside its look-up table.
///
/// Take it where a set, or a list of networks, stays as it is and many addresses are asked for: of a `NetworkSet` of
/// `cidr_sets` those of `as_slice`. Where networks come and go, take `contains` of the set, which is a binary search.
pub struct ReadySet<C: Keyed> {
    ready: ReadyTable<C, ()>,
}

impl<C: Keyed> ReadySet<C> {
    /// Networks in any order, made ready: they are copied and, where they don't ascend, sorted; then in the time and memory
    /// of [`ReadyTable::new`](crate::ReadyTable::new).
    ///
    /// The error is that there are more than 2,147,483,647 networks; or else more than 1,073,741,823 words of the look-up
    /// table, or that an allocation failed. It is never `Refused`.
    ///
    /// ```
    /// # use cidr::Ipv4Cidr;
    /// # use cidr_lookup::*;
    /// # use cidr_support::alloc::Global;
    /// # use cidr_table::LpmTable;
    /// # use core::net::Ipv4Addr;
    /// let blocked: [Ipv4Cidr; 2] = ["10.0.0.0/8".parse()?, "192.0.2.0/24".parse()?];
    /// let ready = ReadySet::new(Global, &blocked)?;
    /// assert!(ready.contains(&"10.1.2.3".parse()?));
    /// assert!(!ready.contains(&"10.0.0.0/7".parse()?));
    /// # Ok::<(), Box<dyn std::error::Error>>(())
    /// ```
    ///
    /// # Errors
    ///
    /// `TableError`, which tells what is wrong.
    pub fn new(alloc: Global, networks: &[C]) -> Result<Self, TableError> {
        if networks.len() >= 1 << 31 {
            return Err(TableError::TooMany);
        }
        let Ok(rows) = rows_without_values(alloc, networks) else {
            return Err(TableError::NoMemory);
        };
        match ReadyTable::new(alloc, LpmTable::from_rows(rows)) {
            Ok(ready) => Ok(ReadySet { ready }),
            Err((_, TableError::TooLarge)) => Err(TableError::TooLarge),
            // there are no more rows than networks
            Err(_) => Err(TableError::NoMemory),
        }
    }

    /// Whether one of the networks has all addresses of this one. An address is asked for as the network of full prefix
    /// length. It takes the time of [`ReadyTable::find`](crate::ReadyTable::find).
    ///
    /// ```
    /// # use cidr::Ipv4Cidr;
    /// # use cidr_lookup::*;
    /// # use cidr_support::alloc::Global;
    /// # use cidr_table::LpmTable;
    /// # use core::net::Ipv4Addr;
    /// let ready = ReadySet::new(Global, &["10.0.0.0/8".parse::<Ipv4Cidr>()?])?;
    /// assert!(ready.contains(&"10.1.2.3".parse()?));
    /// # Ok::<(), Box<dyn std::error::Error>>(())
    /// ```
    #[inline(always)]
    pub fn contains(&self, network: &C) -> bool {
        self.ready.find(network).is_some()
    }
}

/// A row of each network.
#[inline]
fn rows_without_values<C: Copy>(alloc: Global, networks: &[C]) -> Result<Vec<(C, ())>, AllocError> {
    let mut rows = Vec::with_capacity(alloc, networks.len())?;
    for network in networks {
        rows.push((*network, ()))?;
    }
    Ok(rows)
}
