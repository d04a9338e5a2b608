//! Values as JSON.

use cidr_support::vec::Vec;
use crate::errors::JsonError;
use crate::fields::{field, target};
use crate::kinds::{Field, Kind};
use crate::leaf_texts::{push_leaf, push_string};
use crate::leaves::{is_pointer, leaf_end, name};
use cidr_support::alloc::Global;

/// How deep a value is at most.
const DEPTH: u32 = 512;

/// The value at a place of a data section, as JSON of at most `limit` bytes: what [`Database::json`](crate::Database::json) gives, for a
/// caller that keeps the parts of a file as numbers.
///
/// ```
/// # use cidr::Ipv4Cidr;
/// # use cidr_mmdb::*;
/// # use cidr_support::alloc::Global;
/// let mut bytes = b"\x00\x00\x11\x00\x00\x01".to_vec();
/// bytes.extend([0; 16]);
/// bytes.extend(b"\xe1\x47country\x42NL");
/// bytes.extend(b"\xab\xcd\xefMaxMind.com\xe3\x4anode_count\xc1\x01\x4brecord_size\xa1\x18\x4aip_version\xa1\x04");
/// let data = open(&bytes)?.data;
/// assert_eq!(text_at(Global, data, 0, 1000)?.len(), 16);
/// # Ok::<(), Box<dyn std::error::Error>>(())
/// ```
///
/// # Errors
///
/// `JsonError`, which tells what is wrong.
#[inline]
pub fn text_at(
    alloc: Global,
    section: &[u8],
    place: usize,
    limit: usize,
) -> Result<Vec<u8>, JsonError> {
    let mut out = Vec::new(alloc);
    match value(section, place, DEPTH, limit, &mut out) {
        Ok(_) => Ok(out),
        Err(e) => Err(e),
    }
}

/// Writes the value at a place, at most so deep, and tells where its field ends.
#[inline]
pub(crate) fn value(
    section: &[u8],
    at: usize,
    depth: u32,
    limit: usize,
    out: &mut Vec<u8>,
) -> Result<usize, JsonError> {
    if depth == 0 {
        return Err(JsonError::Malformed);
    }
    let Some(field) = field(section, at) else {
        return Err(JsonError::Malformed);
    };
    text_with(section, field, depth - 1, limit, out)
}

/// Writes the value of a field.
fn text_with(
    section: &[u8],
    field: Field,
    depth: u32,
    limit: usize,
    out: &mut Vec<u8>,
) -> Result<usize, JsonError> {
    match field.kind {
        Kind::Pointer => {
            let Some(there) = target(section, field) else {
                return Err(JsonError::Malformed);
            };
            if is_pointer(there.kind) {
                return Err(JsonError::Malformed);
            }
            match value(section, field.size as usize, depth, limit, out) {
                Ok(_) => Ok(field.payload),
                Err(e) => Err(e),
            }
        }
        Kind::Map => collection(section, field, true, depth, limit, out),
        Kind::Array => collection(section, field, false, depth, limit, out),
        _ => {
            let Some(end) = leaf_end(section, field) else {
                return Err(JsonError::Malformed);
            };
            leaf(section, field, end, limit, out)
        }
    }
}

/// Writes a map, whose items have names, or an array.
#[inline]
fn collection(
    section: &[u8],
    field: Field,
    named: bool,
    depth: u32,
    limit: usize,
    out: &mut Vec<u8>,
) -> Result<usize, JsonError> {
    add(opening(named), limit, out)?;
    let end = items(section, field.payload, field.size, named, depth, limit, out)?;
    add(closing(named), limit, out)?;
    Ok(end)
}

/// Writes so many items, one behind the other, with commas between.
fn items(
    section: &[u8],
    at: usize,
    count: u32,
    named: bool,
    depth: u32,
    limit: usize,
    out: &mut Vec<u8>,
) -> Result<usize, JsonError> {
    let mut end = at;
    let mut first = true;
    let mut left = count;
    while left > 0 {
        match item(section, end, named, first, depth, limit, out) {
            Ok(next) => {
                end = next;
            }
            Err(e) => {
                return Err(e);
            }
        }
        first = false;
        left -= 1;
    }
    Ok(end)
}

/// Writes an item, behind a comma unless it is the first.
#[inline]
fn item(
    section: &[u8],
    at: usize,
    named: bool,
    first: bool,
    depth: u32,
    limit: usize,
    out: &mut Vec<u8>,
) -> Result<usize, JsonError> {
    add(comma(first), limit, out)?;
    if named {
        return member(section, at, depth, limit, out);
    }
    value(section, at, depth, limit, out)
}

/// Writes a name and a value.
fn member(
    section: &[u8],
    at: usize,
    depth: u32,
    limit: usize,
    out: &mut Vec<u8>,
) -> Result<usize, JsonError> {
    let Some((string, place)) = name(section, at) else {
        return Err(JsonError::Malformed);
    };
    push_string(
        &section[string.payload..string.payload + string.size as usize],
        out,
    )?;
    add(b":", limit, out)?;
    value(section, place, depth, limit, out)
}

/// Writes a field with no field in it, whose end is known.
#[inline]
fn leaf(
    section: &[u8],
    field: Field,
    end: usize,
    limit: usize,
    out: &mut Vec<u8>,
) -> Result<usize, JsonError> {
    push_leaf(section, field, end, out)?;
    if out.len() > limit {
        return Err(JsonError::TooLong);
    }
    Ok(end)
}

/// Appends bytes, if there is room.
#[inline]
fn add(bytes: &[u8], limit: usize, out: &mut Vec<u8>) -> Result<(), JsonError> {
    if out.extend_from_slice(bytes).is_err() {
        return Err(JsonError::NoMemory);
    }
    if out.len() > limit {
        return Err(JsonError::TooLong);
    }
    Ok(())
}

/// What a map or an array begins with.
#[inline]
fn opening(named: bool) -> &'static [u8] {
    if named { b"{" } else { b"[" }
}

/// What it ends with.
#[inline]
fn closing(named: bool) -> &'static [u8] {
    if named { b"}" } else { b"]" }
}

/// What stands before an item.
#[inline]
fn comma(first: bool) -> &'static [u8] {
    if first { b"" } else { b"," }
}
