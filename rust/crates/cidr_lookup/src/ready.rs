//! Tables of rows, made ready for look-ups.

use cidr_support::vec::Vec;
use crate::address::Address;
use crate::key::Key;
use crate::keyed::Keyed;
use crate::search::find;
use crate::table::{LookupTable, TableError, build};
use cidr_table::{LpmTable, longest_match};
use cidr_support::alloc::{AllocError, Global};

/// A table of rows that stay as they are, made ready for look-ups, which it owns: its rows, and a look-up table of their
/// networks.
///
/// Take it where addresses are looked up in rows that stay, about as many as there are rows, or more. Where rows change
/// between look-ups, take `lookup` of the table.
pub struct ReadyTable<C: Keyed, V> {
    table: LpmTable<C, V>,
    words: LookupTable,
}

impl<C: Keyed, V> ReadyTable<C, V> {
    /// The table, made ready: O(n) for n rows, some 100 ns a row. While it runs it allocates 24 bytes a row of IPv4, or 64 of
    /// IPv6, besides the look-up table.
    ///
    /// The error comes with the table as it was: more than 2,147,483,647 rows; or else more than 1,073,741,823 words of its
    /// look-up table, or that an allocation failed. It is never `Refused`.
    ///
    /// ```
    /// # use cidr::Ipv4Cidr;
    /// # use cidr_lookup::*;
    /// # use cidr_support::alloc::Global;
    /// # use cidr_table::LpmTable;
    /// # use core::net::Ipv4Addr;
    /// let rows = [("0.0.0.0/0".parse()?, 1), ("10.0.0.0/8".parse()?, 2), ("10.1.0.0/16".parse()?, 3)];
    /// let routes: LpmTable<Ipv4Cidr, u32> = rows.into_iter().collect();
    /// let ready = ReadyTable::new(Global, routes).map_err(|refused| refused.1)?;
    /// assert_eq!(format!("{:?}", ready.lookup(&"10.1.2.3".parse()?)), "Some((10.1.0.0/16, 3))");
    /// # Ok::<(), Box<dyn std::error::Error>>(())
    /// ```
    ///
    /// # Errors
    ///
    /// `(LpmTable<C, V>, TableError)`, which tells what is wrong.
    #[inline]
    pub fn new(alloc: Global, table: LpmTable<C, V>) -> Result<Self, (LpmTable<C, V>, TableError)> {
        match words_of(alloc, rows_of(&table)) {
            Ok(words) => Ok(ReadyTable { table, words }),
            Err(error) => Err((table, error)),
        }
    }

    /// The index of the row whose key is the longest that contains the look-up key, counted from 0 in the order of the
    /// keys, or `None` where none does: the longest match of a forwarding table (RFC 1812, 5.2.4.3). An address is looked
    /// up as the network of full prefix length.
    ///
    /// For an address it is one look-up in the look-up table, and reads no row. For a shorter network it reads the row that
    /// its first address has, and where that is longer searches the rows, as `lookup` of the table does. It allocates
    /// nothing.
    ///
    /// ```
    /// # use cidr::Ipv4Cidr;
    /// # use cidr_lookup::*;
    /// # use cidr_support::alloc::Global;
    /// # use cidr_table::LpmTable;
    /// # use core::net::Ipv4Addr;
    /// let rows = [("0.0.0.0/0".parse()?, 1), ("10.0.0.0/8".parse()?, 2), ("10.1.0.0/16".parse()?, 3)];
    /// let routes: LpmTable<Ipv4Cidr, u32> = rows.into_iter().collect();
    /// let ready = ReadyTable::new(Global, routes).map_err(|refused| refused.1)?;
    /// assert_eq!(format!("{:?}", ready.find(&"10.1.2.3".parse()?)), "Some(2)");
    /// assert_eq!(format!("{:?}", ready.find(&"10.0.0.0/15".parse()?)), "Some(1)");
    /// # Ok::<(), Box<dyn std::error::Error>>(())
    /// ```
    #[inline(always)]
    pub fn find(&self, asked: &C) -> Option<usize> {
        let key = Key::<C::Number>::of(asked);
        let first = self.words.first.as_slice();
        let words = self.words.words.as_slice();
        let index = find(&first, &words, self.words.steps, key.address)?;
        if key.len == C::Number::width() {
            return Some(index);
        }
        self.shorter(asked, index)
    }

    /// The index of the longest match of a network whose first address has another, which may be the same.
    #[inline]
    fn shorter(&self, asked: &C, index: usize) -> Option<usize> {
        if let Some(row) = self.table.row(index) {
            if row.0.len() <= asked.len() {
                return Some(index);
            }
        }
        longest_match(&mut self.table.probe(), asked)
    }

    /// The row of the longest match: as `find`, and the row is read.
    ///
    /// ```
    /// # use cidr::Ipv4Cidr;
    /// # use cidr_lookup::*;
    /// # use cidr_support::alloc::Global;
    /// # use cidr_table::LpmTable;
    /// # use core::net::Ipv4Addr;
    /// let rows = [("0.0.0.0/0".parse()?, 1), ("10.0.0.0/8".parse()?, 2), ("10.1.0.0/16".parse()?, 3)];
    /// let routes: LpmTable<Ipv4Cidr, u32> = rows.into_iter().collect();
    /// let ready = ReadyTable::new(Global, routes).map_err(|refused| refused.1)?;
    /// assert_eq!(format!("{:?}", ready.lookup(&"10.0.0.0/15".parse()?)), "Some((10.0.0.0/8, 2))");
    /// # Ok::<(), Box<dyn std::error::Error>>(())
    /// ```
    #[inline(always)]
    pub fn lookup(&self, asked: &C) -> Option<&(C, V)> {
        let index = self.find(asked)?;
        self.table.row(index)
    }

    /// The table, for all calls that only read.
    ///
    /// ```
    /// # use cidr::Ipv4Cidr;
    /// # use cidr_lookup::*;
    /// # use cidr_support::alloc::Global;
    /// # use cidr_table::LpmTable;
    /// # use core::net::Ipv4Addr;
    /// let rows = [("0.0.0.0/0".parse()?, 1), ("10.0.0.0/8".parse()?, 2), ("10.1.0.0/16".parse()?, 3)];
    /// let routes: LpmTable<Ipv4Cidr, u32> = rows.into_iter().collect();
    /// let ready = ReadyTable::new(Global, routes).map_err(|refused| refused.1)?;
    /// let table = ready.table();
    /// assert_eq!(table.len(), 3);
    /// # Ok::<(), Box<dyn std::error::Error>>(())
    /// ```
    #[inline]
    pub fn table(&self) -> &LpmTable<C, V> {
        &self.table
    }

    /// The look-up table alone. Its words may be written elsewhere: [`find`](crate::find) reads them from whatever is
    /// [`Words`](crate::Words), and gives the index of a row.
    ///
    /// ```
    /// # use cidr::Ipv4Cidr;
    /// # use cidr_lookup::*;
    /// # use cidr_support::alloc::Global;
    /// # use cidr_table::LpmTable;
    /// # use core::net::Ipv4Addr;
    /// let rows = [("0.0.0.0/0".parse()?, 1), ("10.0.0.0/8".parse()?, 2), ("10.1.0.0/16".parse()?, 3)];
    /// let routes: LpmTable<Ipv4Cidr, u32> = rows.into_iter().collect();
    /// let ready = ReadyTable::new(Global, routes).map_err(|refused| refused.1)?;
    /// let words = ready.words();
    /// assert_eq!(words.first.len() + words.words.len(), 75);
    /// # Ok::<(), Box<dyn std::error::Error>>(())
    /// ```
    #[inline]
    pub fn words(&self) -> &LookupTable {
        &self.words
    }

    /// The table, for changing its rows. The memory beside the rows is freed.
    ///
    /// ```
    /// # use cidr::Ipv4Cidr;
    /// # use cidr_lookup::*;
    /// # use cidr_support::alloc::Global;
    /// # use cidr_table::LpmTable;
    /// # use core::net::Ipv4Addr;
    /// let rows = [("0.0.0.0/0".parse()?, 1), ("10.0.0.0/8".parse()?, 2), ("10.1.0.0/16".parse()?, 3)];
    /// let routes: LpmTable<Ipv4Cidr, u32> = rows.into_iter().collect();
    /// let ready = ReadyTable::new(Global, routes).map_err(|refused| refused.1)?;
    /// let mut changing = ready.into_table();
    /// changing.set("10.2.0.0/16".parse()?, 4)?;
    /// # Ok::<(), Box<dyn std::error::Error>>(())
    /// ```
    #[inline]
    pub fn into_table(self) -> LpmTable<C, V> {
        self.table
    }
}

/// The rows of a table.
#[inline]
fn rows_of<C: Keyed, V>(table: &LpmTable<C, V>) -> &[(C, V)] {
    table.iter().as_slice()
}

/// The look-up table of rows that ascend.
#[inline]
fn words_of<C: Keyed, V>(alloc: Global, rows: &[(C, V)]) -> Result<LookupTable, TableError> {
    if rows.len() >= 1 << 31 {
        return Err(TableError::TooMany);
    }
    match keys_of_rows(alloc, rows) {
        Ok(keys) => build(alloc, keys.as_slice()),
        Err(AllocError) => Err(TableError::NoMemory),
    }
}

/// The keys of rows.
#[inline]
fn keys_of_rows<C: Keyed, V>(
    alloc: Global,
    rows: &[(C, V)],
) -> Result<Vec<Key<C::Number>>, AllocError> {
    let mut keys = Vec::with_capacity(alloc, rows.len())?;
    for row in rows {
        keys.push(Key::of(&row.0))?;
    }
    Ok(keys)
}
