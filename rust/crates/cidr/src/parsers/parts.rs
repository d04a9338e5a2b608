//! Reading numbers that are joined by dots, in one pass over the bytes.

use crate::addr::read_v4::take_byte;

/// A form of the numbers that stand between dots.
pub(crate) trait Part: Sized {
    /// The number at the front, and what follows it.
    fn take(text: &[u8]) -> Option<(u32, &[u8])>;
}

/// The numbers of a string.
#[derive(Clone, Copy)]
pub(crate) struct Parts {
    /// The octets before the last number, as a number.
    pub(crate) front: u32,
    /// How many octets these are.
    pub(crate) count: u8,
    /// The last number.
    pub(crate) last: u32,
}

/// What follows the plus, or the whole string where it begins with none.
#[inline]
pub(crate) fn after_plus(text: &[u8]) -> &[u8] {
    take_byte(text, b'+').unwrap_or(text)
}

/// The number up to `most` that the digits at the front write, and what follows them.
#[inline(always)]
pub(crate) fn take_number(text: &[u8], radix: u32, most: u32) -> Option<(u32, &[u8])> {
    let mut value = 0u64;
    let mut count = 0;
    for byte in text {
        let Some(digit) = char::from(*byte).to_digit(radix) else {
            break;
        };
        value = value * u64::from(radix) + u64::from(digit);
        if value > u64::from(most) {
            return None;
        }
        count += 1;
    }
    if count == 0 {
        None
    } else {
        Some((value as u32, &text[count..]))
    }
}

/// The one to four numbers of a string, of which all but the last are octets.
#[inline(always)]
pub(crate) fn read_parts<P: Part>(text: &[u8]) -> Option<Parts> {
    let mut front = 0u32;
    let mut rest = text;
    for count in 0..4u8 {
        let (number, after) = P::take(rest)?;
        if after.is_empty() {
            return Some(Parts {
                front,
                count,
                last: number,
            });
        }
        rest = take_byte(after, b'.')?;
        if number > 255 {
            return None;
        }
        front = front * 256 + number;
    }
    None
}
