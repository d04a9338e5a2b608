//! The texts of fields with no field in them.

use cidr_support::vec::Vec;
use crate::errors::JsonError;
use crate::kinds::{Field, Kind};
use crate::numbers::number;
use crate::numerals::{digit, push_decimal, push_digits, push_double, push_float};
use cidr_support::arrayvec::ArrayVec;
use cidr_support::alloc::AllocError;

/// Appends the text of a field with no field in it, whose end is known.
pub(crate) fn push_leaf(
    section: &[u8],
    field: Field,
    end: usize,
    out: &mut Vec<u8>,
) -> Result<(), JsonError> {
    match field.kind {
        Kind::Utf8String => {
            return push_string(payload(section, field, end), out);
        }
        Kind::Bytes => push_bytes(payload(section, field, end), out)?,
        Kind::Boolean => push_boolean(field.size == 1, out)?,
        Kind::Double => push_double(number(section, field.payload, field.size) as u64, out)?,
        Kind::Float => push_float(number(section, field.payload, field.size) as u32, out)?,
        Kind::Int32 => push_signed(number(section, field.payload, field.size) as u32, out)?,
        _ => push_decimal(number(section, field.payload, field.size), out)?,
    }
    Ok(())
}

/// Appends a string of JSON, if the bytes are UTF-8.
#[inline]
pub(crate) fn push_string(bytes: &[u8], out: &mut Vec<u8>) -> Result<(), JsonError> {
    if !is_utf8(bytes) {
        return Err(JsonError::Malformed);
    }
    push_quoted(bytes, out)?;
    Ok(())
}

/// Whether bytes are UTF-8.
#[inline]
fn is_utf8(bytes: &[u8]) -> bool {
    match core::str::from_utf8(bytes) {
        Ok(_) => true,
        Err(_) => false,
    }
}

/// Appends a string of JSON.
#[inline]
fn push_quoted(bytes: &[u8], out: &mut Vec<u8>) -> Result<(), AllocError> {
    out.push(b'"')?;
    push_spelled(bytes, out)?;
    out.push(b'"')?;
    Ok(())
}

/// Appends bytes of UTF-8 as they stand in a string of JSON.
#[inline]
fn push_spelled(bytes: &[u8], out: &mut Vec<u8>) -> Result<(), AllocError> {
    for byte in bytes {
        out.extend_from_slice(spelling(*byte).as_slice())?;
    }
    Ok(())
}

/// How a byte of UTF-8 stands in a string of JSON.
fn spelling(byte: u8) -> ArrayVec<u8, 6> {
    let mut text = ArrayVec::new();
    if byte == b'"' || byte == b'\\' {
        text.push(b'\\');
        text.push(byte);
        return text;
    }
    if byte < 32 {
        text.push(b'\\');
        text.push(b'u');
        text.push(b'0');
        text.push(b'0');
        text.push(digit(byte / 16));
        text.push(digit(byte % 16));
        return text;
    }
    text.push(byte);
    text
}

/// Appends bytes in hexadecimal, as a string of JSON.
#[inline]
fn push_bytes(bytes: &[u8], out: &mut Vec<u8>) -> Result<(), AllocError> {
    out.push(b'"')?;
    push_hexadecimal(bytes, out)?;
    out.push(b'"')?;
    Ok(())
}

/// Appends bytes in hexadecimal.
#[inline]
fn push_hexadecimal(bytes: &[u8], out: &mut Vec<u8>) -> Result<(), AllocError> {
    for byte in bytes {
        push_digits(16, 256, 2, u128::from(*byte), out)?;
    }
    Ok(())
}

/// Appends `true` or `false`.
#[inline]
fn push_boolean(value: bool, out: &mut Vec<u8>) -> Result<(), AllocError> {
    out.extend_from_slice(if value { b"true" } else { b"false" })
}

/// Appends a number of four bytes in two's complement.
#[inline]
fn push_signed(bits: u32, out: &mut Vec<u8>) -> Result<(), AllocError> {
    if bits < 0x8000_0000 {
        return push_decimal(u128::from(bits), out);
    }
    out.push(b'-')?;
    push_decimal(0x1_0000_0000 - u128::from(bits), out)
}

/// The bytes of a string or of bytes, whose end is known.
#[inline]
fn payload(section: &[u8], field: Field, end: usize) -> &[u8] {
    &section[field.payload..end]
}
