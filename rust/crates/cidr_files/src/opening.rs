//! The header of a file, and the parts that it tells of.

use crate::faults::FileFault;
use crate::layout::{Counts, FileTable, FileTables};

/// The first word of a file: the bytes 89 43 49 44, which begin no UTF-8 text.
pub(crate) const MAGIC: u32 = 0x4449_4389;

/// The version that is read and written.
pub(crate) const VERSION: u32 = 5;

/// The size of the header.
const HEADER: usize = 64;

/// The tables of a file, in parts that are not yet checked: a few reads, however long it is, and no allocation. The
/// error is the first of `Magic`, `Old` or `Version`, and `Short` or `Long`.
///
/// ```
/// # use cidr_files::*;
/// # use cidr_lookup::{Address, Key};
/// # use cidr_support::{alloc::Global, vec::Vec};
/// # use core::net::{Ipv4Addr, Ipv6Addr};
/// # fn name<'a>(table: &FileTables<'a>, address: Ipv4Addr) -> Option<&'a str> {
/// #     core::str::from_utf8(lookup(&table.ipv4, address.to_bits().to_le_bytes())?.1).ok()
/// # }
/// assert_eq!(format!("{:?}", open(b"text").err()), "Some(Magic)");
/// # Ok::<(), Box<dyn std::error::Error>>(())
/// ```
///
/// # Errors
///
/// `FileFault`, which tells what is wrong.
pub fn open(bytes: &[u8]) -> Result<FileTables<'_>, FileFault> {
    if word_at(bytes, 0) != MAGIC {
        return Err(FileFault::Magic);
    }
    let version = word_at(bytes, 1);
    if 0 < version && version < VERSION {
        return Err(FileFault::Old);
    }
    if version != VERSION {
        return Err(FileFault::Version(version));
    }
    if bytes.len() < HEADER {
        return Err(FileFault::Short);
    }
    let Some((ipv4, rest)) = part_of(&bytes[HEADER..], 4, &counts_at(bytes, 4)) else {
        return Err(FileFault::Short);
    };
    let Some((ipv6, rest)) = part_of(rest, 16, &counts_at(bytes, 10)) else {
        return Err(FileFault::Short);
    };
    if !rest.is_empty() {
        return Err(FileFault::Long);
    }
    Ok(FileTables { ipv4, ipv6 })
}

/// The counts of the IPv4 table and of the IPv6 table, as the header of a file has them: what is behind the end counts
/// as 0. Whether the bytes are a file is for [`open`]. A few reads, and no allocation.
///
/// ```
/// # use cidr_files::*;
/// # use cidr_lookup::{Address, Key};
/// # use cidr_support::{alloc::Global, vec::Vec};
/// # use core::net::{Ipv4Addr, Ipv6Addr};
/// # fn name<'a>(table: &FileTables<'a>, address: Ipv4Addr) -> Option<&'a str> {
/// #     core::str::from_utf8(lookup(&table.ipv4, address.to_bits().to_le_bytes())?.1).ok()
/// # }
/// let keys = [Key { address: [0, 0, 0, 10], len: 8 }, Key { address: [0, 0, 1, 10], len: 16 }];
/// let ipv4 = FileRows { keys: &keys, offsets: &[0, 5, 10], values: b"outerinner" };
/// let file = written(Global, &ipv4, &FileRows { keys: &[], offsets: &[0], values: b"" })?;
/// assert_eq!(counts(file.as_slice()).0.rows, 2);
/// # Ok::<(), Box<dyn std::error::Error>>(())
/// ```
#[inline]
pub fn counts(bytes: &[u8]) -> (Counts, Counts) {
    (counts_at(bytes, 4), counts_at(bytes, 10))
}

/// The parts of a table whose addresses have so many bytes, and what lies behind them; `None` where the bytes are too few.
fn part_of<'a>(bytes: &'a [u8], size: usize, counts: &Counts) -> Option<(FileTable<'a>, &'a [u8])> {
    let rows = counts.rows as usize;
    let (first, rest) = cut(bytes, 4 * counts.entries as usize)?;
    let (words, rest) = cut(rest, 4 * counts.words as usize)?;
    let (addresses, rest) = cut(rest, size * rows)?;
    let (lengths, rest) = cut(rest, rows)?;
    let (offsets, rest) = cut(rest, 4 * (rows + 1))?;
    let (values, rest) = cut(rest, counts.values as usize)?;
    let part = FileTable {
        first,
        words,
        addresses,
        lengths,
        offsets,
        values,
        steps: counts.steps,
    };
    Some((part, rest))
}

/// So many of the first bytes, and those from the next multiple of 8 on; `None` where these are too few.
#[inline]
fn cut(bytes: &[u8], size: usize) -> Option<(&[u8], &[u8])> {
    let end = (size + 7) / 8 * 8;
    if end > bytes.len() {
        return None;
    }
    Some((&bytes[..size], &bytes[end..]))
}

/// The counts of a table, whose words begin at an index.
#[inline]
fn counts_at(bytes: &[u8], index: usize) -> Counts {
    Counts {
        rows: word_at(bytes, index),
        entries: word_at(bytes, index + 1),
        words: word_at(bytes, index + 2),
        steps: word_at(bytes, index + 3),
        values: word_at(bytes, index + 4),
    }
}

/// The word at an index, or 0 behind the last.
#[inline(always)]
fn word_at(bytes: &[u8], index: usize) -> u32 {
    let (words, _) = bytes.as_chunks::<4>();
    if index >= words.len() {
        return 0;
    }
    u32::from_le_bytes(words[index])
}
