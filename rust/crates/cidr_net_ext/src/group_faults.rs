//! What is wrong with a group of an address, or with its octets.

/// What may be wrong with a group.
#[derive(Clone, Copy)]
pub(crate) enum GroupFault {
    LeadingZero,
    NumberAbove255,
    NotFourOctets,
    LongGroup,
}

/// Whether all bytes are decimal digits.
#[inline]
fn has_digits_alone(text: &str) -> bool {
    text.as_bytes().iter().all(|byte| byte.is_ascii_digit())
}

/// Whether a string is one decimal digit or more.
#[inline]
fn is_number(text: &str) -> bool {
    !text.is_empty() && has_digits_alone(text)
}

/// Whether a byte is in a string.
#[inline]
fn has(text: &str, byte: u8) -> bool {
    text.as_bytes().iter().any(|other| *other == byte)
}

/// Whether each octet of a group is a number.
#[inline]
fn has_numbers_alone(group: &str) -> bool {
    group.split('.').all(|octet| is_number(octet))
}

/// Whether a group is decimal numbers joined by dots, or one in an address that has no colon.
#[inline]
fn is_dotted(address: &str, group: &str) -> bool {
    has_numbers_alone(group) && (has(group, b'.') || !has(address, b':'))
}

/// Whether an octet has a zero before other digits.
#[inline]
fn begins_with_zero(octet: &str) -> bool {
    let digits = octet.as_bytes();
    digits.len() > 1 && digits[0] == b'0'
}

/// Whether an octet is a number above 255.
#[inline]
fn is_above_255(octet: &str) -> bool {
    is_number(octet) && octet.parse::<u8>().is_err()
}

/// Whether an octet of a group has a zero before other digits.
#[inline]
fn has_leading_zero(group: &str) -> bool {
    group.split('.').any(|octet| begins_with_zero(octet))
}

/// Whether an octet of a group is a number above 255.
#[inline]
fn has_large_number(group: &str) -> bool {
    group.split('.').any(|octet| is_above_255(octet))
}

/// How many dots a group has.
#[inline]
fn dot_count(group: &str) -> usize {
    group
        .as_bytes()
        .iter()
        .filter(|byte| **byte == b'.')
        .count()
}

/// Whether a group has four octets.
#[inline]
fn has_four_octets(group: &str) -> bool {
    dot_count(group) == 3
}

/// Whether all bytes are hexadecimal digits.
#[inline]
fn has_hex_digits_alone(text: &str) -> bool {
    text.as_bytes().iter().all(|byte| byte.is_ascii_hexdigit())
}

/// Whether a group of an address with colons has more than four hexadecimal digits.
#[inline]
fn is_long(address: &str, group: &str) -> bool {
    has(address, b':') && group.len() > 4 && has_hex_digits_alone(group)
}

/// Whether a group of an address has the fault.
#[inline]
fn group_has(fault: GroupFault, address: &str, group: &str) -> bool {
    match fault {
        GroupFault::LeadingZero => is_dotted(address, group) && has_leading_zero(group),
        GroupFault::NumberAbove255 => is_dotted(address, group) && has_large_number(group),
        GroupFault::NotFourOctets => is_dotted(address, group) && !has_four_octets(group),
        GroupFault::LongGroup => is_long(address, group),
    }
}

/// Whether a group of an address has the fault.
#[inline]
fn address_has(fault: GroupFault, address: &str) -> bool {
    address
        .split(':')
        .any(|group| group_has(fault, address, group))
}

/// What stands before the first slash.
#[inline]
fn before_slash(text: &str) -> &str {
    match text.split_once('/') {
        Some((front, _)) => front,
        None => text,
    }
}

/// Whether a group of an address of a string has the fault.
#[inline]
pub(crate) fn some_group_has(fault: GroupFault, text: &str) -> bool {
    let addresses = before_slash(text);
    addresses
        .split('-')
        .any(|address| address_has(fault, address))
}
