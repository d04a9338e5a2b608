//! Numbers as text: in decimal, in hexadecimal, and those of IEEE 754.

use cidr_support::vec::Vec;
use cidr_support::arrayvec::ArrayString;
use cidr_support::alloc::AllocError;
use core::fmt::Write;

/// Appends a number in decimal.
#[inline]
pub(crate) fn push_decimal(n: u128, out: &mut Vec<u8>) -> Result<(), AllocError> {
    let mut text = ArrayString::<39>::new();
    match write!(text, "{n}") {
        Ok(()) => out.extend_from_slice(text.as_bytes()),
        Err(_) => Err(AllocError),
    }
}

/// Appends the lowest digits of a number, so many; `power` is the base to the power of that.
pub(crate) fn push_digits(
    base: u8,
    power: u128,
    count: u32,
    n: u128,
    out: &mut Vec<u8>,
) -> Result<(), AllocError> {
    let base = u128::from(base);
    let mut unit = power;
    let mut left = count;
    while left > 0 {
        unit = unit / base;
        left -= 1;
        out.push(digit((n / unit % base) as u8))?;
    }
    Ok(())
}

/// The digit, in lower case.
#[inline]
pub(crate) fn digit(digit: u8) -> u8 {
    if digit < 10 {
        b'0' + digit
    } else {
        b'a' + (digit - 10)
    }
}

/// Appends a binary64 by its bits.
pub(crate) fn push_double(bits: u64, out: &mut Vec<u8>) -> Result<(), AllocError> {
    let negative = bits / 0x8000_0000_0000_0000 == 1;
    let exponent = (bits / 0x10_0000_0000_0000 % 2048) as u32;
    let fraction = bits % 0x10_0000_0000_0000;
    match exponent {
        2047 => push_special(negative, fraction, out),
        0 => push_finite(negative, 0, fraction, 1, out),
        _ => push_finite(negative, 1, fraction, exponent, out),
    }
}

/// Appends a binary32 by its bits.
pub(crate) fn push_float(bits: u32, out: &mut Vec<u8>) -> Result<(), AllocError> {
    let negative = bits / 0x8000_0000 == 1;
    let exponent = bits / 0x80_0000 % 256;
    let fraction = u64::from(bits % 0x80_0000) * 0x2000_0000;
    match exponent {
        255 => push_special(negative, fraction, out),
        0 => push_finite(negative, 0, fraction, 897, out),
        _ => push_finite(negative, 1, fraction, exponent + 896, out),
    }
}

/// Appends infinity, or that it is no number.
#[inline]
fn push_special(negative: bool, fraction: u64, out: &mut Vec<u8>) -> Result<(), AllocError> {
    if fraction > 0 {
        return out.extend_from_slice(b"\"NaN\"");
    }
    if negative {
        return out.extend_from_slice(b"\"-Infinity\"");
    }
    out.extend_from_slice(b"\"Infinity\"")
}

/// Appends a number, in decimal or else in hexadecimal.
#[inline]
fn push_finite(
    negative: bool,
    lead: u64,
    fraction: u64,
    exponent: u32,
    out: &mut Vec<u8>,
) -> Result<(), AllocError> {
    match decimal_of(lead * 0x10_0000_0000_0000 + fraction, exponent) {
        Some((digits, places)) => push_places(negative, digits, places, out),
        None => push_hexadecimal(negative, lead, fraction, exponent, out),
    }
}

/// Appends a decimal with so many places.
#[inline]
fn push_places(
    negative: bool,
    digits: u128,
    places: u32,
    out: &mut Vec<u8>,
) -> Result<(), AllocError> {
    let power = ten(places);
    push_sign(negative, out)?;
    push_decimal(digits / power, out)?;
    out.push(b'.')?;
    push_digits(10, power, places, digits, out)
}

/// Appends a number in hexadecimal, as a string of JSON.
fn push_hexadecimal(
    negative: bool,
    lead: u64,
    fraction: u64,
    exponent: u32,
    out: &mut Vec<u8>,
) -> Result<(), AllocError> {
    out.push(b'"')?;
    push_sign(negative, out)?;
    out.extend_from_slice(b"0x")?;
    push_digits(16, 16, 1, u128::from(lead), out)?;
    out.push(b'.')?;
    push_digits(16, 0x10_0000_0000_0000, 13, u128::from(fraction), out)?;
    out.push(b'p')?;
    push_exponent(exponent, out)?;
    out.push(b'"')?;
    Ok(())
}

/// Appends a minus sign, or nothing.
#[inline]
fn push_sign(negative: bool, out: &mut Vec<u8>) -> Result<(), AllocError> {
    out.extend_from_slice(if negative { b"-" } else { b"" })
}

/// Appends an exponent of two, with its sign.
#[inline]
fn push_exponent(exponent: u32, out: &mut Vec<u8>) -> Result<(), AllocError> {
    if exponent < 1023 {
        out.push(b'-')?;
        return push_decimal(u128::from(1023 - exponent), out);
    }
    out.push(b'+')?;
    push_decimal(u128::from(exponent - 1023), out)
}

/// The decimal of a number: its digits, and how many of these are places.
fn decimal_of(m: u64, exponent: u32) -> Option<(u128, u32)> {
    if m == 0 {
        return Some((0, 1));
    }
    if exponent < 1005 {
        return None;
    }
    if exponent < 1076 {
        return shortest(m, two(1075 - exponent));
    }
    if exponent < 1087 {
        return Some((u128::from(m) * two(exponent - 1075) * 10, 1));
    }
    None
}

/// The decimal with the fewest places that reads as m / unit.
fn shortest(m: u64, unit: u128) -> Option<(u128, u32)> {
    let mut places: u32 = 1;
    let mut left: u32 = 22;
    while left > 0 {
        let power = ten(places);
        let digits = nearest(m, unit, power);
        if is_near(m, unit, power, digits) {
            return Some((digits, places));
        }
        places += 1;
        left -= 1;
    }
    None
}

/// m / unit in units of 1 / power: the nearest.
#[inline]
fn nearest(m: u64, unit: u128, power: u128) -> u128 {
    (2 * (u128::from(m) * power) + unit) / (2 * unit)
}

/// Whether that is nearer than half of what is between m / unit and the next binary64.
#[inline]
fn is_near(m: u64, unit: u128, power: u128, digits: u128) -> bool {
    let distance = (digits * unit).abs_diff(u128::from(m) * power);
    if distance >= power {
        return false;
    }
    let times = if m == 0x10_0000_0000_0000 { 4 } else { 2 };
    distance * times < power
}

/// A power of ten.
#[inline]
fn ten(places: u32) -> u128 {
    10u128.pow(places)
}

/// A power of two.
#[inline]
fn two(exponent: u32) -> u128 {
    2u128.pow(exponent)
}
