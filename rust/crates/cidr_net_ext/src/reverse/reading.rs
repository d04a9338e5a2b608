//! Reading the names of networks in reverse DNS, in one pass over the bytes.

use crate::reverse::name::{domain, label_bits};
use cidr::names::Family;

/// The value of the hexadecimal digit, which may be of either case.
#[inline]
fn hex_value(byte: u8) -> Option<u8> {
    match byte {
        b'0'..=b'9' => Some(byte - b'0'),
        b'a'..=b'f' => Some(byte - b'a' + 10),
        b'A'..=b'F' => Some(byte - b'A' + 10),
        _ => None,
    }
}

/// What follows a dot at the front.
#[inline]
fn take_dot(text: &[u8]) -> Option<&[u8]> {
    match text {
        [b'.', rest @ ..] => Some(rest),
        _ => None,
    }
}

/// The value of the decimal digit at the front, and what follows it.
#[inline]
fn take_digit(text: &[u8]) -> Option<(u8, &[u8])> {
    match text {
        [digit @ b'0'..=b'9', rest @ ..] => Some((*digit - b'0', rest)),
        _ => None,
    }
}

/// The octet at the front, in decimal without leading zeros and with a dot behind it, and what follows the dot.
#[inline]
fn take_octet(text: &[u8]) -> Option<(u8, &[u8])> {
    let (first, rest) = take_digit(text)?;
    if let Some(rest) = take_dot(rest) {
        return Some((first, rest));
    }
    if first == 0 {
        return None;
    }
    let (second, rest) = take_digit(rest)?;
    let two = first * 10 + second;
    if let Some(rest) = take_dot(rest) {
        return Some((two, rest));
    }
    let (third, rest) = take_digit(rest)?;
    let three = u16::from(two) * 10 + u16::from(third);
    if three > 255 {
        return None;
    }
    Some((three as u8, take_dot(rest)?))
}

/// The nibble at the front, a hexadecimal digit with a dot behind it, and what follows the dot.
#[inline]
fn take_nibble(text: &[u8]) -> Option<(u8, &[u8])> {
    match text {
        [digit, b'.', rest @ ..] => Some((hex_value(*digit)?, rest)),
        _ => None,
    }
}

/// The label at the front, with a dot behind it, and what follows the dot.
#[inline]
fn take_label(family: Family, text: &[u8]) -> Option<(u8, &[u8])> {
    match family {
        Family::Ipv4 => take_octet(text),
        Family::Ipv6 => take_nibble(text),
    }
}

/// The number with the bits of this label behind its own.
#[inline]
fn with_label(family: Family, number: u128, label: u8) -> u128 {
    match family {
        Family::Ipv4 => number * 256 + u128::from(label),
        Family::Ipv6 => number * 16 + u128::from(label),
    }
}

/// The number that is written by labels with a dot behind each, the last one first, and how many they are. There are
/// no more than `room`.
#[inline]
fn read_labels(family: Family, text: &[u8], room: u8) -> Option<(u128, u8)> {
    if text.is_empty() {
        return Some((0, 0));
    }
    let room = room.checked_sub(1)?;
    let (label, rest) = take_label(family, text)?;
    let (number, count) = read_labels(family, rest, room)?;
    Some((with_label(family, number, label), count + 1))
}

/// The string without the dot at its end, if there is one.
#[inline]
fn without_final_dot(text: &[u8]) -> &[u8] {
    match text.split_last() {
        Some((b'.', front)) => front,
        _ => text,
    }
}

/// What precedes the domain, which may be in upper or lower case.
#[inline]
fn before_domain<'a>(text: &'a [u8], domain: &str) -> Option<&'a [u8]> {
    let (front, end) = text.split_at(text.len().checked_sub(domain.len())?);
    if end.eq_ignore_ascii_case(domain.as_bytes()) {
        Some(front)
    } else {
        None
    }
}

/// The family, the number of the bits and the prefix length of the network that has these labels.
#[inline]
fn read_family(family: Family, labels: &[u8]) -> Option<(Family, u128, u8)> {
    let width = label_bits(family);
    let (number, count) = read_labels(family, labels, family.len() / width)?;
    Some((family, number, count * width))
}

/// The family, the number of the bits and the prefix length of the network that has this name.
#[inline]
pub(crate) fn read_name(name: &str) -> Option<(Family, u128, u8)> {
    let name = without_final_dot(name.as_bytes());
    match before_domain(name, domain(Family::Ipv4)) {
        Some(labels) => read_family(Family::Ipv4, labels),
        None => read_family(Family::Ipv6, before_domain(name, domain(Family::Ipv6))?),
    }
}
