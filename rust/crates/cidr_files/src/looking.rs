//! Look-ups in the parts of a table.

use crate::address::FileAddress;
use crate::layout::FileTable;

/// What a look-up finds: a row, and where its value lies among the values.
#[derive(Clone, Copy)]
pub struct Found {
    /// The index of the row, counted from 0.
    pub row: usize,
    /// Where its value begins, in bytes from 0 on.
    pub from: u32,
    /// Where it ends: the first byte behind it.
    pub to: u32,
}

/// The row of the longest network that an address is in, and its value; `None` where it is in none: the longest match of a
/// forwarding table (RFC 1812, 5.2.4.3).
///
/// Whatever the bytes are, it reads nothing outside of them, and the row, counted from 0, is one of them. It is the
/// longest match, and the value that of its row, in parts that [`check`](crate::check) accepted.
///
/// It takes one step for each six bits that are needed to tell the match, as `find` of `cidr_lookup`, and allocates nothing.
///
/// ```
/// # use cidr_files::*;
/// # use cidr_lookup::{Address, Key};
/// # use cidr_support::{alloc::Global, vec::Vec};
/// # use core::net::{Ipv4Addr, Ipv6Addr};
/// # fn name<'a>(table: &FileTables<'a>, address: Ipv4Addr) -> Option<&'a str> {
/// #     core::str::from_utf8(lookup(&table.ipv4, address.to_bits().to_le_bytes())?.1).ok()
/// # }
/// # fn name_of<'a>(table: &FileTables<'a>, address: Ipv4Addr) -> Option<&'a [u8]> {
/// let (_row, name) = lookup(&table.ipv4, address.to_bits().to_le_bytes())?;
/// # Some(name)
/// # }
/// # let keys = [Key { address: [0, 0, 0, 10], len: 8 }, Key { address: [0, 0, 1, 10], len: 16 }];
/// # let ipv4 = FileRows { keys: &keys, offsets: &[0, 5, 10], values: b"outerinner" };
/// # let file = written(Global, &ipv4, &FileRows { keys: &[], offsets: &[0], values: b"" })?;
/// # let table = open(file.as_slice())?;
/// # assert_eq!(name_of(&table, Ipv4Addr::new(10, 1, 2, 3)), Some(b"inner".as_slice()));
/// # Ok::<(), Box<dyn std::error::Error>>(())
/// ```
#[inline]
pub fn lookup<'a, W: FileAddress>(part: &FileTable<'a>, address: W) -> Option<(usize, &'a [u8])> {
    let found = find(part, address)?;
    Some((
        found.row,
        &part.values[found.from as usize..found.to as usize],
    ))
}

/// What [`lookup`] finds, in its time, with the place of the value among the values in place of its bytes. In parts that
/// are no table the place is inside of the values, too.
///
/// ```
/// # use cidr_files::*;
/// # use cidr_lookup::{Address, Key};
/// # use cidr_support::{alloc::Global, vec::Vec};
/// # use core::net::{Ipv4Addr, Ipv6Addr};
/// # fn name<'a>(table: &FileTables<'a>, address: Ipv4Addr) -> Option<&'a str> {
/// #     core::str::from_utf8(lookup(&table.ipv4, address.to_bits().to_le_bytes())?.1).ok()
/// # }
/// let keys = [Key { address: [0, 0, 0, 10], len: 8 }, Key { address: [0, 0, 1, 10], len: 16 }];
/// let ipv4 = FileRows { keys: &keys, offsets: &[0, 5, 10], values: b"outerinner" };
/// let file = written(Global, &ipv4, &FileRows { keys: &[], offsets: &[0], values: b"" })?;
/// let table = open(file.as_slice())?;
/// let found = find(&table.ipv4, [3, 2, 1, 10]).ok_or("none")?;
/// assert_eq!(format!("{:?}", (found.row, found.from, found.to)), "(1, 5, 10)");
/// # Ok::<(), Box<dyn std::error::Error>>(())
/// ```
#[inline(always)]
pub fn find<W: FileAddress>(part: &FileTable<'_>, address: W) -> Option<Found> {
    let row = longest_row(part, address)?;
    let (from, to) = place_of(part, row);
    Some(Found { row, from, to })
}

/// Whether an address is in one of the networks, in parts that [`check`](crate::check) accepted; in others the answer
/// may be wrong, and nothing outside of them is read. In the time of [`lookup`], without the offsets and the values.
///
/// ```
/// # use cidr_files::*;
/// # use cidr_lookup::{Address, Key};
/// # use cidr_support::{alloc::Global, vec::Vec};
/// # use core::net::{Ipv4Addr, Ipv6Addr};
/// # fn name<'a>(table: &FileTables<'a>, address: Ipv4Addr) -> Option<&'a str> {
/// #     core::str::from_utf8(lookup(&table.ipv4, address.to_bits().to_le_bytes())?.1).ok()
/// # }
/// # fn has_ipv6(table: &FileTables<'_>, address: Ipv6Addr) -> bool {
/// has(&table.ipv6, Ipv6Bytes::of(address.to_bits()))
/// # }
/// # let keys = [Key { address: [0, 0, 0, 10], len: 8 }, Key { address: [0, 0, 1, 10], len: 16 }];
/// # let ipv4 = FileRows { keys: &keys, offsets: &[0, 5, 10], values: b"outerinner" };
/// # let file = written(Global, &ipv4, &FileRows { keys: &[], offsets: &[0], values: b"" })?;
/// # let table = open(file.as_slice())?;
/// # assert!(!has_ipv6(&table, Ipv6Addr::LOCALHOST));
/// # Ok::<(), Box<dyn std::error::Error>>(())
/// ```
#[inline]
pub fn has<W: FileAddress>(part: &FileTable<'_>, address: W) -> bool {
    match longest_row(part, address) {
        Some(_) => true,
        None => false,
    }
}

/// The row of the longest network that an address is in.
#[inline(always)]
fn longest_row<W: FileAddress>(part: &FileTable<'_>, address: W) -> Option<usize> {
    let (first, _) = part.first.as_chunks::<4>();
    let (words, _) = part.words.as_chunks::<4>();
    let addresses = W::addresses(part.addresses);
    let row = cidr_lookup::find(&first, &words, part.steps, address)?;
    if row >= addresses.len().min(part.lengths.len()) {
        return None;
    }
    Some(row)
}

/// Where the value of a row begins and ends, or twice 0 where the offsets are wrong.
#[inline(always)]
fn place_of(part: &FileTable<'_>, row: usize) -> (u32, u32) {
    let (offsets, _) = part.offsets.as_chunks::<4>();
    if row + 1 >= offsets.len() {
        return (0, 0);
    }
    let from = u32::from_le_bytes(offsets[row]);
    let to = u32::from_le_bytes(offsets[row + 1]);
    if from > to || to as usize > part.values.len() {
        return (0, 0);
    }
    (from, to)
}
