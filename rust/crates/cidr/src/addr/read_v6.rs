//! Parsing IPv6 strings, in one pass over the bytes.

use crate::addr::hex::{hex_number, hex_value};
use crate::addr::read_v4::{read_ipv4, take_byte};
use crate::addr::v4::Ipv4Addr;

/// The value of the group at the front, and what follows its digits.
#[inline(always)]
fn take_group(text: &[u8]) -> Option<(u16, &[u8])> {
    let mut value = 0u16;
    let mut count = 0;
    for byte in text {
        let Some(digit) = hex_value(*byte) else {
            break;
        };
        if count == 4 {
            return None;
        }
        value = value * 16 + digit as u16;
        count += 1;
    }
    if count == 0 {
        None
    } else {
        Some((value, &text[count..]))
    }
}

/// The value of a group of four digits and a colon at the front, and what follows the colon.
#[inline(always)]
fn take_full_group(text: &[u8]) -> Option<(u16, &[u8])> {
    if text.len() < 5 || text[4] != b':' {
        return None;
    }
    let group = hex_number(text[0], text[1], text[2], text[3])?;
    Some((group, &text[5..]))
}

/// Groups with colons between them. An IPv4 string may stand for the last two, and nothing follows it.
#[derive(Clone, Copy)]
struct Groups<'a> {
    /// The number that they write.
    number: u128,
    /// How many they are.
    count: usize,
    /// What follows the colon behind them. It is empty where the last of them ends the string.
    rest: &'a [u8],
}

/// As many groups as there are at the front, up to `room`, or nothing where neither the end of the string nor two
/// colons follow.
#[inline(always)]
fn read_groups(text: &[u8], room: usize) -> Option<Groups<'_>> {
    let mut groups = Groups {
        number: 0,
        count: 0,
        rest: text,
    };
    while groups.count < room {
        // Most groups have four digits, and are not the last.
        if let Some((group, rest)) = take_full_group(groups.rest) {
            groups = Groups {
                number: (groups.number << 16) + u128::from(group),
                count: groups.count + 1,
                rest,
            };
            continue;
        }
        let Some((group, after)) = take_group(groups.rest) else {
            return if groups.count > 0 && groups.rest.is_empty() {
                None
            } else {
                Some(groups)
            };
        };
        if let Some(rest) = take_byte(after, b':') {
            groups = Groups {
                number: (groups.number << 16) + u128::from(group),
                count: groups.count + 1,
                rest,
            };
            continue;
        }
        if after.is_empty() {
            return Some(Groups {
                number: (groups.number << 16) + u128::from(group),
                count: groups.count + 1,
                rest: after,
            });
        }
        if groups.count + 1 == room {
            return None;
        }
        let last = Ipv4Addr::from(read_ipv4(groups.rest)?);
        return Some(Groups {
            number: (groups.number << 32) + u128::from(last.to_bits()),
            count: groups.count + 2,
            rest: &[],
        });
    }
    if groups.count == 0 {
        Some(groups)
    } else {
        None
    }
}

/// What follows two colons after so many groups. Where there are some, the first colon has been taken with them.
#[inline]
fn take_two_colons(text: &[u8], count: usize) -> Option<&[u8]> {
    let second = if count > 0 {
        text
    } else {
        take_byte(text, b':')?
    };
    take_byte(second, b':')
}

/// The number of the IPv6 address that the string is parsed as.
pub(crate) fn read_ipv6(text: &[u8]) -> Option<u128> {
    let head = read_groups(text, 8)?;
    if head.rest.is_empty() {
        return if head.count == 8 {
            Some(head.number)
        } else {
            None
        };
    }
    let tail_text = take_two_colons(head.rest, head.count)?;
    // The two colons stand for one group at least.
    let tail = read_groups(tail_text, 7 - head.count)?;
    if !tail.rest.is_empty() {
        return None;
    }
    let front = head.number << (16 * (7 - head.count));
    Some((front << 16) + tail.number)
}
