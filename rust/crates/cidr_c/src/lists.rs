//! Lists of networks as texts, with comments and ranges. The first error is that of the first line in error, and then
//! too little room; no memory may come before either.

use crate::codes::{NO_MEMORY, NO_ROOM, OK, line_code};
use crate::printing::print;
use crate::values::{CValue, put_network};
use cidr::AnyIpCidr;
use cidr_lists::errors::ListError;
use cidr_lists::lines::HostBits;
use cidr_lists::lists::Lists;
use cidr_support::alloc::Global;

/// Reads a list: a network, an address or a range of addresses a line, with white space around it and a comment behind
/// it from `#` or `;` on. A line may say nothing. 0, and the networks stand in a room, those of IPv4 first, of each
/// family in the order of the lines, and `count` becomes how many; where there is too little room, it becomes how many
/// are needed. Else the number of the error of the first line in error, whose number, from 1 on, and message are told.
///
/// Where `host_bits` is 1 or 3, a host says its network; else a set bit after a prefix is an error. Where it is 2 or 3, a
/// network mask or a host mask may stand in the place of a prefix length, behind a slash or white space.
pub fn pcidr_read_list(
    alloc: Global,
    text: &[u8],
    host_bits: u32,
    out: &mut [CValue],
    count: &mut usize,
    line: &mut u64,
    message: &mut [u8],
) -> u32 {
    match Lists::of_text(alloc, host_bits_by(host_bits), text) {
        Ok(lists) => put_lists(&lists, out, count),
        Err(ListError::Line(number, error)) => {
            *line = number;
            print(error.message().as_str(), message);
            line_code(&error)
        }
        Err(ListError::NoMemory) => NO_MEMORY,
    }
}

/// What is done with set bits after a prefix, and whether masks are read.
#[inline]
pub fn host_bits_by(number: u32) -> HostBits {
    match number {
        1 => HostBits::Cleared,
        2 => HostBits::RefusedWithMasks,
        3 => HostBits::ClearedWithMasks,
        _ => HostBits::Refused,
    }
}

/// Puts the networks of lists to the front of a room, those of IPv4 first, or says how many they are.
#[inline]
fn put_lists(lists: &Lists, out: &mut [CValue], count: &mut usize) -> u32 {
    *count = lists.v4.len() + lists.v6.len();
    if out.len() < *count {
        return NO_ROOM;
    }
    put_all(lists, *count, out);
    OK
}

/// The same where there is room.
#[inline]
fn put_all(lists: &Lists, count: usize, out: &mut [CValue]) {
    for i in 0..count {
        put_network(&network_at(lists, i), &mut out[i]);
    }
}

/// The network at an index, those of IPv4 first.
#[inline]
fn network_at(lists: &Lists, index: usize) -> AnyIpCidr {
    if index < lists.v4.len() {
        return AnyIpCidr::V4(lists.v4[index]);
    }
    AnyIpCidr::V6(lists.v6[index - lists.v4.len()])
}
