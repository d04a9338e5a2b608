//! Files of rows.

use cidr_support::vec::Vec;
use crate::address::{FileAddress, Ipv4Bytes, Ipv6Bytes};
use crate::checking::are_offsets;
use crate::contents::{Contents, FileRows};
use crate::faults::WriteError;
use crate::writing::file_of;
use cidr_lookup::{LookupTable, TableError, build};
use cidr_support::alloc::Global;

/// The bytes of the file of rows, which are the same for the same rows. It takes O(n) for n rows and a pass over the bytes,
/// and allocates the bytes and the look-up tables of both families.
///
/// The error is the first of the IPv4 rows, or else of the IPv6 rows: more than 2,147,483,647 keys; `Values`, where the
/// values don't lie one behind the other, in fewer than 2^32 bytes; the first key that is no network or doesn't come
/// after the one before it, with its index among the rows of its family; more than 2,147,483,647 words. `NoMemory` may come
/// before any.
///
/// ```
/// # use cidr_files::*;
/// # use cidr_lookup::{Address, Key};
/// # use cidr_support::{alloc::Global, vec::Vec};
/// # use core::net::{Ipv4Addr, Ipv6Addr};
/// # fn name<'a>(table: &FileTables<'a>, address: Ipv4Addr) -> Option<&'a str> {
/// #     core::str::from_utf8(lookup(&table.ipv4, address.to_bits().to_le_bytes())?.1).ok()
/// # }
/// let ipv4 = [Key { address: [0, 0, 0, 10], len: 8 }, Key { address: [0, 0, 1, 10], len: 16 }, Key { address: [0, 2, 0, 192], len: 24 }];
/// let ipv4 = FileRows {
///     keys: &ipv4,
///     offsets: &[0, 5, 10, 14],
///     values: b"outerinnertest",
/// };
/// # Ok::<(), Box<dyn std::error::Error>>(())
/// ```
///
/// With such rows of IPv6 as well:
///
/// ```
/// # use cidr_files::*;
/// # use cidr_lookup::{Address, Key};
/// # use cidr_support::{alloc::Global, vec::Vec};
/// # use core::net::{Ipv4Addr, Ipv6Addr};
/// # fn name<'a>(table: &FileTables<'a>, address: Ipv4Addr) -> Option<&'a str> {
/// #     core::str::from_utf8(lookup(&table.ipv4, address.to_bits().to_le_bytes())?.1).ok()
/// # }
/// # fn file_of_rows(alloc: Global, ipv4: FileRows<'_, Ipv4Bytes>, ipv6: FileRows<'_, Ipv6Bytes>) -> Result<Vec<u8>, WriteError> {
/// written(alloc, &ipv4, &ipv6)
/// # }
/// # let keys = [Key { address: [0, 0, 0, 10], len: 8 }];
/// # let rows = FileRows { keys: &keys, offsets: &[0, 5], values: b"outer" };
/// # let file = file_of_rows(Global, rows, FileRows { keys: &[], offsets: &[0], values: b"" })?;
/// # assert_eq!(name(&checked(Global, file.as_slice())?, Ipv4Addr::new(10, 1, 2, 3)), Some("outer"));
/// # Ok::<(), Box<dyn std::error::Error>>(())
/// ```
///
/// # Errors
///
/// `WriteError`, which tells what is wrong.
#[inline]
pub fn written(
    alloc: Global,
    ipv4: &FileRows<'_, Ipv4Bytes>,
    ipv6: &FileRows<'_, Ipv6Bytes>,
) -> Result<Vec<u8>, WriteError> {
    let ipv4_table = table_of(alloc, ipv4)?;
    let ipv6_table = table_of(alloc, ipv6)?;
    let ipv4_contents = contents_of(ipv4, &ipv4_table);
    let ipv6_contents = contents_of(ipv6, &ipv6_table);
    let bytes = file_of(alloc, &ipv4_contents, &ipv6_contents)?;
    Ok(bytes)
}

/// A table of rows and their words.
#[inline]
fn contents_of<'a, W: FileAddress>(
    rows: &'a FileRows<'a, W>,
    table: &'a LookupTable,
) -> Contents<'a, W> {
    Contents {
        rows,
        first: table.first.as_slice(),
        words: table.words.as_slice(),
        steps: table.steps,
    }
}

/// The look-up table of rows.
fn table_of<W: FileAddress>(
    alloc: Global,
    rows: &FileRows<'_, W>,
) -> Result<LookupTable, WriteError> {
    if rows.keys.len() >= 1 << 31 {
        return Err(WriteError::Table(TableError::TooMany));
    }
    if rows.values.len() >= 1 << 32 {
        return Err(WriteError::Values);
    }
    if !are_offsets(&rows.offsets, rows.keys.len(), rows.values.len()) {
        return Err(WriteError::Values);
    }
    let table = build(alloc, rows.keys)?;
    Ok(table)
}
