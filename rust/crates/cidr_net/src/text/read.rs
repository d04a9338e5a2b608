//! Parsing the parts of a network's string.

use crate::addr::error::AddrParseError;
use crate::addr::read_v4::{decimal_value, take_byte};
use crate::errors::{NetworkParseError, ParseIntError};

/// The index of the last slash, if there is one.
#[inline(never)]
fn last_slash(bytes: &[u8]) -> Option<usize> {
    for i in (0..bytes.len()).rev() {
        if bytes[i] == b'/' {
            return Some(i);
        }
    }
    None
}

/// What precedes the last slash, and the bytes after it, if there is one. Most prefix lengths have two digits, so that
/// it is looked for before two bytes first.
#[inline]
pub(crate) fn cut_at_last_slash(s: &str) -> Option<(&str, &[u8])> {
    let bytes = s.as_bytes();
    let i = match bytes {
        [front @ .., b'/', tens, ones] if *tens != b'/' && *ones != b'/' => front.len(),
        _ => last_slash(bytes)?,
    };
    Some((&s[..i], &bytes[i + 1..]))
}

/// The number that two decimal digits write.
#[inline]
fn read_two_digits(tens: u8, ones: u8) -> Option<u8> {
    let (tens, ones) = (decimal_value(tens), decimal_value(ones));
    if tens > 9 || ones > 9 {
        return None;
    }
    Some(tens * 10 + ones)
}

/// The number below 256 that the digits write.
fn read_digits(digits: &[u8]) -> Option<u8> {
    if digits.is_empty() {
        return None;
    }
    if let [tens, ones] = digits {
        return read_two_digits(*tens, *ones);
    }
    let mut value = 0u8;
    for digit in digits {
        if !digit.is_ascii_digit() {
            return None;
        }
        let more = u16::from(value) * 10 + u16::from(*digit - b'0');
        if more > 255 {
            return None;
        }
        value = more as u8;
    }
    Some(value)
}

/// The number of a prefix length's string.
#[inline]
pub(crate) fn read_length(text: &[u8]) -> Result<u8, NetworkParseError> {
    let digits = match take_byte(text, b'+') {
        Some(digits) => read_digits(digits),
        None => read_digits(text),
    };
    digits.ok_or_else(|| NetworkParseError::NetworkLengthParseError(length_error(text)))
}

/// The error of `core::num` for what is no number below 256.
#[cold]
#[inline]
fn length_error(text: &[u8]) -> ParseIntError {
    match core::str::from_utf8(text).unwrap_or("").parse::<u8>() {
        Err(e) => e,
        Ok(_) => unreachable!(),
    }
}

/// The address and the prefix length that follows it, where parsing the address returned `address`. Its error comes
/// first.
#[inline(always)]
pub(crate) fn with_length_text<A: Copy>(
    address: Result<A, AddrParseError>,
    text: &[u8],
) -> Result<(A, u8), NetworkParseError> {
    let address = address?;
    Ok((address, read_length(text)?))
}

/// What both parts of a string with a slash are parsed as, by `address_parser` what precedes the last one.
#[inline(always)]
pub(crate) fn read_at_slash<A, AP>(
    s: &str,
    address_parser: AP,
) -> Option<Result<(A, u8), NetworkParseError>>
where
    A: Copy,
    AP: FnOnce(&str) -> Result<A, AddrParseError>,
{
    let (front, back) = cut_at_last_slash(s)?;
    Some(with_length_text(address_parser(front), back))
}
