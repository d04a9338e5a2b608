//! Files of tables, written.

use cidr_support::vec::Vec;
use crate::address::{FileAddress, Ipv4Bytes, Ipv6Bytes};
use crate::contents::{Contents, counts_of};
use crate::layout::Counts;
use crate::opening::{MAGIC, VERSION};
use cidr_lookup::Key;
use cidr_support::alloc::{AllocError, Global};

/// The bytes of a file of two tables whose words the caller has; of rows alone, take `written`. It takes a pass over
/// the bytes and allocates them. The error is that an allocation fails.
///
/// The caller has to ensure that each table is one: that its words are those of its keys, as `build` of `cidr_lookup`
/// returns them, that its values lie one behind the other, and that there are fewer than 2^31 keys, 2^30 entries and 2^30
/// words, and fewer than 2^32 bytes of values.
///
/// ```
/// # use cidr_files::*;
/// # use cidr_lookup::{Address, Key};
/// # use cidr_support::{alloc::Global, vec::Vec};
/// # use core::net::{Ipv4Addr, Ipv6Addr};
/// # fn name<'a>(table: &FileTables<'a>, address: Ipv4Addr) -> Option<&'a str> {
/// #     core::str::from_utf8(lookup(&table.ipv4, address.to_bits().to_le_bytes())?.1).ok()
/// # }
/// let rows = FileRows { keys: &[Key { address: [0, 0, 0, 10], len: 8 }], offsets: &[0, 5], values: b"outer" };
/// let none = FileRows { keys: &[], offsets: &[0], values: b"" };
/// let (of_ipv4, of_ipv6) = (cidr_lookup::build(Global, rows.keys)?, cidr_lookup::build(Global, none.keys)?);
/// let ipv4 = Contents { rows: &rows, first: &of_ipv4.first, words: &of_ipv4.words, steps: of_ipv4.steps };
/// let ipv6 = Contents { rows: &none, first: &of_ipv6.first, words: &of_ipv6.words, steps: of_ipv6.steps };
/// let file = file_of(Global, &ipv4, &ipv6)?;
/// assert_eq!(format!("{:?}", name(&checked(Global, file.as_slice())?, Ipv4Addr::new(10, 1, 2, 3))), "Some(\"outer\")");
/// # Ok::<(), Box<dyn std::error::Error>>(())
/// ```
///
/// # Errors
///
/// `AllocError` where memory runs out.
#[inline]
pub fn file_of(
    alloc: Global,
    ipv4: &Contents<'_, Ipv4Bytes>,
    ipv6: &Contents<'_, Ipv6Bytes>,
) -> Result<Vec<u8>, AllocError> {
    let mut out = Vec::new(alloc);
    put_head(&mut out, &counts_of(ipv4), &counts_of(ipv6))?;
    put_contents(&mut out, ipv4)?;
    put_contents(&mut out, ipv6)?;
    Ok(out)
}

/// Writes the header.
fn put_head(out: &mut Vec<u8>, ipv4: &Counts, ipv6: &Counts) -> Result<(), AllocError> {
    let words = [
        MAGIC,
        VERSION,
        0,
        0,
        ipv4.rows,
        ipv4.entries,
        ipv4.words,
        ipv4.steps,
        ipv4.values,
        0,
        ipv6.rows,
        ipv6.entries,
        ipv6.words,
        ipv6.steps,
        ipv6.values,
        0,
    ];
    put_words(out, &words)?;
    Ok(())
}

/// Writes the parts of a table.
#[inline]
fn put_contents<W: FileAddress>(
    out: &mut Vec<u8>,
    contents: &Contents<'_, W>,
) -> Result<(), AllocError> {
    put_word_part(out, contents.first)?;
    put_word_part(out, contents.words)?;
    put_key_part(out, contents.rows.keys)?;
    put_length_part(out, contents.rows.keys)?;
    put_word_part(out, contents.rows.offsets)?;
    put_part(out, contents.rows.values)?;
    Ok(())
}

/// Writes a part of words.
#[inline]
fn put_word_part(out: &mut Vec<u8>, words: &[u32]) -> Result<(), AllocError> {
    put_words(out, words)?;
    fill(out)?;
    Ok(())
}

/// Writes the part of the addresses of keys.
#[inline]
fn put_key_part<W: FileAddress>(out: &mut Vec<u8>, keys: &[Key<W>]) -> Result<(), AllocError> {
    put_keys(out, keys)?;
    fill(out)?;
    Ok(())
}

/// Writes the part of their prefix lengths.
#[inline]
fn put_length_part<W: FileAddress>(out: &mut Vec<u8>, keys: &[Key<W>]) -> Result<(), AllocError> {
    put_lengths(out, keys)?;
    fill(out)?;
    Ok(())
}

/// Writes a part of bytes.
#[inline]
fn put_part(out: &mut Vec<u8>, part: &[u8]) -> Result<(), AllocError> {
    out.extend_from_slice(part)?;
    fill(out)?;
    Ok(())
}

/// Writes the bytes of the addresses of keys.
#[inline]
fn put_keys<W: FileAddress>(out: &mut Vec<u8>, keys: &[Key<W>]) -> Result<(), AllocError> {
    for i in 0..keys.len() {
        W::put(keys[i].address.number(), out)?;
    }
    Ok(())
}

/// Writes a byte for the prefix length of each key.
#[inline]
fn put_lengths<W: FileAddress>(out: &mut Vec<u8>, keys: &[Key<W>]) -> Result<(), AllocError> {
    for i in 0..keys.len() {
        out.push(keys[i].len as u8)?;
    }
    Ok(())
}

/// Writes the bytes of words.
#[inline]
fn put_words(out: &mut Vec<u8>, words: &[u32]) -> Result<(), AllocError> {
    for i in 0..words.len() {
        out.extend_from_slice(&words[i].to_le_bytes())?;
    }
    Ok(())
}

/// Writes zeros up to a multiple of 8.
#[inline]
fn fill(out: &mut Vec<u8>) -> Result<(), AllocError> {
    let size = out.len();
    let free = (size + 7) / 8 * 8 - size;
    out.extend_from_slice(&[0; 8][..free])?;
    Ok(())
}
