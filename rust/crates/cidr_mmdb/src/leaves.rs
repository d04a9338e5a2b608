//! Fields with no field in them, and the names of maps.

use crate::fields::{field, target};
use crate::kinds::{Field, Kind};

/// Whether a field of a type with no field in it may have this size.
fn is_sized(kind: Kind, size: u32) -> bool {
    match kind {
        Kind::Utf8String => true,
        Kind::Bytes => true,
        Kind::Double => size == 8,
        Kind::Float => size == 4,
        Kind::Boolean => size < 2,
        Kind::Uint16 => size < 3,
        Kind::Uint32 => size < 5,
        Kind::Int32 => size < 5,
        Kind::Uint64 => size < 9,
        Kind::Uint128 => size < 17,
        Kind::Pointer => false,
        Kind::Map => false,
        Kind::Array => false,
    }
}

/// How many bytes its payload has.
#[inline]
fn bytes_of(field: Field) -> usize {
    match field.kind {
        Kind::Boolean => 0,
        _ => field.size as usize,
    }
}

/// Where a field with no field in it ends.
pub(crate) fn leaf_end(section: &[u8], field: Field) -> Option<usize> {
    if !is_sized(field.kind, field.size) {
        return None;
    }
    let bytes = bytes_of(field);
    if field.payload > section.len() {
        return None;
    }
    if bytes > section.len() - field.payload {
        return None;
    }
    Some(field.payload + bytes)
}

/// Where a string ends.
#[inline]
fn string_end(section: &[u8], field: Field) -> Option<usize> {
    match field.kind {
        Kind::Utf8String => leaf_end(section, field),
        _ => None,
    }
}

/// The name at a place, and where its field ends.
pub(crate) fn name(section: &[u8], at: usize) -> Option<(Field, usize)> {
    let first = field(section, at)?;
    if is_pointer(first.kind) {
        let string = target(section, first)?;
        string_end(section, string)?;
        return Some((string, first.payload));
    }
    let end = string_end(section, first)?;
    Some((first, end))
}

/// Whether a field is a pointer.
#[inline]
pub(crate) fn is_pointer(kind: Kind) -> bool {
    match kind {
        Kind::Pointer => true,
        _ => false,
    }
}
