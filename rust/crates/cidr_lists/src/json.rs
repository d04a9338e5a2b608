//! Strings of JSON.

use cidr_support::vec::Vec;
use cidr_support::arrayvec::ArrayVec;
use cidr_io::shown::hex_digit;
use cidr_support::alloc::AllocError;

/// A byte of UTF-8 as it is written in a string of JSON (RFC 8259, 7): a quote and a backslash behind a backslash, a control
/// character of ASCII as its code, `\u0009`, and any other as it is. So the bytes of a text are written one after the other.
pub fn spelling(byte: u8) -> ArrayVec<u8, 6> {
    let mut text = ArrayVec::new();
    if byte == b'"' || byte == b'\\' {
        text.push(b'\\');
        text.push(byte);
        return text;
    }
    if byte < 32 {
        text.push(b'\\');
        text.push(b'u');
        text.push(b'0');
        text.push(b'0');
        text.push(hex_digit(byte / 16) as u8);
        text.push(hex_digit(byte % 16) as u8);
        return text;
    }
    text.push(byte);
    text
}

/// Appends a text of UTF-8 as it is written in a string of JSON, without the quotes around it. The error is that an
/// allocation fails.
#[inline]
pub fn push_string(text: &mut Vec<u8>, value: &[u8]) -> Result<(), AllocError> {
    for byte in value {
        text.extend_from_slice(spelling(*byte).as_slice())?;
    }
    Ok(())
}
