//! Bytes that are written by two hexadecimal digits.

use crate::line_error::LineError;

/// The text with the bytes that `%` and two upper-case digits stand for.
pub fn unescaped(escaped: &str) -> Result<String, LineError> {
    let mut parts = escaped.split('%');
    let mut bytes = parts.next().unwrap_or_default().as_bytes().to_vec();
    for part in parts {
        match part.as_bytes() {
            [high, low, plain @ ..] if !high.is_ascii_lowercase() && !low.is_ascii_lowercase() => {
                bytes.push(byte_of(*high, *low)?);
                bytes.extend_from_slice(plain);
            }
            _ => return Err(LineError::Malformed),
        }
    }
    String::from_utf8(bytes).map_err(|_| LineError::Malformed)
}

/// The bytes of two lower-case digits each.
pub fn bytes_of(digits: &[u8]) -> Result<Vec<u8>, LineError> {
    let pairs = digits.chunks(2).map(|pair| match pair {
        [high, low] if !high.is_ascii_uppercase() && !low.is_ascii_uppercase() => {
            byte_of(*high, *low)
        }
        _ => Err(LineError::Malformed),
    });
    pairs.collect()
}

/// The byte of two digits of either case.
fn byte_of(high: u8, low: u8) -> Result<u8, LineError> {
    match (char::from(high).to_digit(16), char::from(low).to_digit(16)) {
        (Some(high), Some(low)) => Ok((high * 16 + low) as u8),
        _ => Err(LineError::Malformed),
    }
}
