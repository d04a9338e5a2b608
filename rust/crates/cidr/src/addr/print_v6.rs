//! Printing the groups of an IPv6 address into a string of a fixed capacity.

use crate::addr::hex::{hex_digit, hex_pair};
use cidr_support::arrayvec::ArrayString;

/// Appends the group in hexadecimal, without leading zeros.
#[inline(always)]
fn push_hex<const CAP: usize>(text: &mut ArrayString<CAP>, group: u16) {
    let high = (group / 0x100) as u8;
    let low = (group % 0x100) as u8;
    if group >= 0x1000 {
        text.push_str(hex_pair(high));
        text.push_str(hex_pair(low));
    } else if group >= 0x100 {
        text.push_str(hex_digit(high));
        text.push_str(hex_pair(low));
    } else if group >= 0x10 {
        text.push_str(hex_pair(low));
    } else {
        text.push_str(hex_digit(low));
    }
}

/// Appends the groups with colons between them.
#[inline(always)]
fn push_groups<const CAP: usize>(text: &mut ArrayString<CAP>, groups: &[u16]) {
    if let [first, rest @ ..] = groups {
        push_hex(text, *first);
        for group in rest {
            text.push(':');
            push_hex(text, *group);
        }
    }
}

/// The longest run of zeros among eight groups, for each number with a bit that is set for each zero, the highest one
/// for the first group. The first hexadecimal digit is where the run starts, the second its length. A table has no
/// branch to mispredict.
static RUNS: [u8; 256] = *b"\
    \x00\x71\x61\x62\x51\x51\x52\x53\x41\x41\x41\x62\x42\x42\x43\x44\
    \x31\x31\x31\x62\x31\x31\x52\x53\x32\x32\x32\x32\x33\x33\x34\x35\
    \x21\x21\x21\x62\x21\x21\x52\x53\x21\x21\x21\x62\x42\x42\x43\x44\
    \x22\x22\x22\x22\x22\x22\x22\x53\x23\x23\x23\x23\x24\x24\x25\x26\
    \x11\x11\x11\x62\x11\x11\x52\x53\x11\x11\x11\x62\x42\x42\x43\x44\
    \x11\x11\x11\x62\x11\x11\x52\x53\x32\x32\x32\x32\x33\x33\x34\x35\
    \x12\x12\x12\x12\x12\x12\x12\x53\x12\x12\x12\x12\x12\x12\x43\x44\
    \x13\x13\x13\x13\x13\x13\x13\x13\x14\x14\x14\x14\x15\x15\x16\x17\
    \x01\x01\x01\x62\x01\x01\x52\x53\x01\x01\x01\x62\x42\x42\x43\x44\
    \x01\x01\x01\x62\x01\x01\x52\x53\x32\x32\x32\x32\x33\x33\x34\x35\
    \x01\x01\x01\x62\x01\x01\x52\x53\x01\x01\x01\x62\x42\x42\x43\x44\
    \x22\x22\x22\x22\x22\x22\x22\x53\x23\x23\x23\x23\x24\x24\x25\x26\
    \x02\x02\x02\x02\x02\x02\x02\x53\x02\x02\x02\x02\x02\x02\x43\x44\
    \x02\x02\x02\x02\x02\x02\x02\x53\x02\x02\x02\x02\x33\x33\x34\x35\
    \x03\x03\x03\x03\x03\x03\x03\x03\x03\x03\x03\x03\x03\x03\x03\x44\
    \x04\x04\x04\x04\x04\x04\x04\x04\x05\x05\x05\x05\x06\x06\x07\x08";

/// Which of the groups are zeros, as a number with a bit for each group, the highest for the first.
#[inline(always)]
fn zero_places(groups: &[u16]) -> usize {
    let mut places = 0;
    for group in groups {
        places = 2 * places + if *group == 0 { 1 } else { 0 };
    }
    places
}

/// The start and the length of the longest run of zeros, the first one of that length.
#[inline(always)]
fn longest_run(groups: &[u16]) -> (usize, usize) {
    let run = RUNS[zero_places(groups)];
    (usize::from(run / 16), usize::from(run % 16))
}

/// Appends eight groups, the longest run of two zeros or more as `::`.
#[inline(always)]
pub(crate) fn push_hex_groups<const CAP: usize>(text: &mut ArrayString<CAP>, groups: &[u16]) {
    let (start, len) = longest_run(groups);
    if len > 1 {
        push_groups(text, &groups[..start]);
        text.push_str("::");
        push_groups(text, &groups[start + len..]);
    } else {
        push_groups(text, groups);
    }
}
