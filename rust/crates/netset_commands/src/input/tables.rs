//! Tables by their networks, as they are and for look-ups.

use cidr_support::vec::Vec;
use cidr::{Ipv4Cidr, Ipv6Cidr};
use cidr_lists::rows::{RowList, Span};
use cidr_lookup::{Keyed, ReadyTable, TableError};
use cidr_table::LpmTable;
use cidr_support::alloc::{AllocError, Global};

/// The networks of each family, each with the span of its value, and the bytes of all values.
pub struct PlainTable {
    /// The networks of IPv4.
    pub v4: LpmTable<Ipv4Cidr, Span>,
    /// The networks of IPv6.
    pub v6: LpmTable<Ipv6Cidr, Span>,
    /// The bytes of all values, for `value_at_span` of `cidr_lists`.
    pub values: Vec<u8>,
}

impl PlainTable {
    /// The table of these rows, of which the last one of each network counts. It sorts them, O(n log n).
    #[inline]
    pub fn of_rows(rows: RowList) -> PlainTable {
        let RowList { v4, v6, values } = rows;
        PlainTable {
            v4: LpmTable::from_rows(v4),
            v6: LpmTable::from_rows(v6),
            values,
        }
    }
}

/// The networks of one family, in which addresses are looked up.
pub enum Searched<R, P> {
    /// Made ready for that.
    Ready(R),
    /// As they are: there are more of them than can be made ready.
    Plain(P),
}

/// That of networks of a type.
pub type SearchedRows<C> = Searched<ReadyTable<C, Span>, LpmTable<C, Span>>;

impl<C: Keyed> Searched<ReadyTable<C, Span>, LpmTable<C, Span>> {
    /// The networks of a table, made ready where they can be. The error is that there is no memory.
    #[inline]
    fn new(alloc: Global, table: LpmTable<C, Span>) -> Result<SearchedRows<C>, AllocError> {
        match ReadyTable::new(alloc, table) {
            Ok(ready) => Ok(Searched::Ready(ready)),
            Err((table, error)) => match error {
                TableError::NoMemory => Err(AllocError),
                _ => Ok(Searched::Plain(table)),
            },
        }
    }

    /// The row of the longest network that an address is in, which is given as the network of full prefix length.
    #[inline]
    pub fn lookup(&self, asked: &C) -> Option<&(C, Span)> {
        match self {
            Searched::Ready(table) => table.lookup(asked),
            Searched::Plain(table) => table.lookup(asked),
        }
    }
}

/// The same as a table, for look-ups.
pub struct SearchedTable {
    /// The networks of IPv4.
    pub v4: SearchedRows<Ipv4Cidr>,
    /// The networks of IPv6.
    pub v6: SearchedRows<Ipv6Cidr>,
    /// The bytes of all values.
    pub values: Vec<u8>,
}

impl SearchedTable {
    /// The table of these rows, of which the last one of each network counts, made ready for look-ups as `ReadyTable` of
    /// `cidr_lookup` is. The error is that there is no memory.
    #[inline]
    pub fn of_rows(alloc: Global, rows: RowList) -> Result<SearchedTable, AllocError> {
        let PlainTable { v4, v6, values } = PlainTable::of_rows(rows);
        let v4 = Searched::new(alloc, v4)?;
        let v6 = Searched::new(alloc, v6)?;
        Ok(SearchedTable { v4, v6, values })
    }
}
