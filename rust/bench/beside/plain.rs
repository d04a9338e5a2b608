//! plain ROUNDS [ROW]: times plain ways to do what calls of the library do, by numbers, masks and the standard library,
//! on the values that `bench` has, or one row alone.
//! Prints of each a line with tabs between: the name of the row, a number that hangs on all results, and the nanoseconds
//! that one call takes, the least of five turns.
mod rows;

use rows::*;
use std::fmt::{Display, Write};
use std::hint::black_box;
use std::net::{IpAddr, Ipv4Addr, Ipv6Addr};
use std::str::FromStr;

/// Does a row, and prints its line.
fn row(name: &str, time: impl FnOnce() -> Timed) {
    if wants(name) {
        let (time, number) = time();
        println!("{name}\t{number}\t{time:.3}");
    }
}

fn main() {
    let few = rounds();
    let many = rounds_of_many(few);
    reading(many);
    row("read loose IPv4 address", || each(few, &LOOSE_ADDRESSES, |text| loose_address(text).unwrap_or(1)));
    printing(many);
    compact_bytes(many);
    prefix_bytes(many);
    let numbers = array(|index| u32::from(ipv4_address(index)));
    row("no call", || pairs(few, &numbers, &numbers, |one, other| one ^ other));
    containing(few);
    ordering(few);
    bits_v4(few);
    bits_v6(few);
    stepping(few);
    walking(few);
}

/// The 64 values of a row that takes pairs.
fn array<T>(value: impl Fn(usize) -> T) -> [T; COUNT] {
    std::array::from_fn(value)
}

/// As many values as a row has that takes one after the other.
fn list<T>(value: impl Fn(usize) -> T) -> Vec<T> {
    (0..MANY).map(value).collect()
}

// ---- networks as numbers

/// A network as a first number and a prefix length, or as a first number and a mask.
type Plain4 = (u32, u8);
type Plain6 = (u128, u8);

fn plain_v4((first, len): (Ipv4Addr, u8)) -> Plain4 {
    (u32::from(first), len)
}

fn plain_v6((first, len): (Ipv6Addr, u8)) -> Plain6 {
    (u128::from(first), len)
}

struct Masked<T> {
    first: T,
    mask: T,
}

fn masked_v4((first, len): Plain4) -> Masked<u32> {
    Masked { first, mask: ipv4_mask(len) }
}

fn masked_v6((first, len): Plain6) -> Masked<u128> {
    Masked { first, mask: ipv6_mask(len) }
}

fn network_v4(index: usize) -> Plain4 {
    plain_v4(ipv4_network(index))
}

fn network_v6(index: usize) -> Plain6 {
    plain_v6(ipv6_network(index))
}

// ---- reading and printing

/// What becomes of set bits after the prefix.
#[derive(Clone, Copy)]
enum HostBits {
    Refused,
    Kept,
    Cleared,
}

/// An address of the standard library.
trait Address: FromStr + Number {
    /// The number of the first address of its network, where it has a network of this prefix length.
    fn first(&self, len: u8) -> Option<u32>;
}

impl Address for Ipv4Addr {
    fn first(&self, len: u8) -> Option<u32> {
        (len <= 32).then(|| u32::from(*self) & ipv4_mask(len))
    }
}

impl Address for Ipv6Addr {
    fn first(&self, len: u8) -> Option<u32> {
        (len <= 128).then(|| folded(u128::from(*self) & ipv6_mask(len)))
    }
}

impl Address for IpAddr {
    fn first(&self, len: u8) -> Option<u32> {
        match self {
            IpAddr::V4(address) => address.first(len),
            IpAddr::V6(address) => address.first(len),
        }
    }
}

/// The number of the network or host that a string is read as, by an address of the standard library and a mask.
fn network<A: Address>(text: &str, host_bits: HostBits) -> Option<u32> {
    let (front, back) = text.split_once('/')?;
    let address = front.parse::<A>().ok()?;
    let len = back.parse::<u8>().ok()?;
    let first = address.first(len)?;
    match host_bits {
        HostBits::Refused if first != address.number() => None,
        HostBits::Refused | HostBits::Cleared => Some(with_length(first, len)),
        HostBits::Kept => Some(with_length(address.number(), len)),
    }
}

fn read<A: Address>(name: &str, rounds: u32, texts: &[String], host_bits: HostBits) {
    row(name, || each(rounds, texts, |text| network::<A>(text, host_bits).unwrap_or(1)));
}

fn reading(rounds: u32) {
    use HostBits::{Cleared, Kept, Refused};
    read::<Ipv4Addr>("read IPv4 network", rounds, &texts(ipv4_random, true), Refused);
    read::<Ipv6Addr>("read IPv6 network", rounds, &texts(ipv6_random, true), Refused);
    let both = texts(ip_random, true);
    read::<IpAddr>("read IpCidr", rounds, &both, Refused);
    read::<IpAddr>("read AnyIpCidr", rounds, &both, Refused);
    let hosts = texts(ipv4_sample, true);
    read::<Ipv4Addr>("read IPv4 host", rounds, &hosts, Kept);
    read::<Ipv6Addr>("read IPv6 host", rounds, &texts(ipv6_sample, true), Kept);
    read::<Ipv4Addr>("read IPv4 network, host bits cleared", rounds, &hosts, Cleared);
}

/// A number by the standard library, which is handed its digits.
fn loose_number(part: &str) -> Option<u32> {
    match part.strip_prefix("0x") {
        Some(digits) => u32::from_str_radix(digits, 16).ok(),
        None if part.starts_with('0') => u32::from_str_radix(part, 8).ok(),
        None => part.parse::<u32>().ok(),
    }
}

/// The address of numbers that are cut at their dots one by one.
fn loose_address(text: &str) -> Option<u32> {
    let mut rest = text;
    let mut front = 0u32;
    for count in 0..4u32 {
        let Some((octet, after)) = rest.split_once('.') else {
            let last = u64::from(loose_number(rest)?);
            let free = 32 - 8 * count;
            return (last >> free == 0).then(|| (u64::from(front) << free | last) as u32);
        };
        let octet = loose_number(octet)?;
        if octet > 255 {
            return None;
        }
        front = front << 8 | octet;
        rest = after;
    }
    None
}

/// Prints networks: the prefix length is printed where it is not full.
fn print<A: Display>(name: &str, rounds: u32, value: impl Fn(usize) -> (A, u8), full: impl Fn(&A) -> u8) {
    row(name, || {
        each(rounds, &list(value), |(address, len)| {
            written(|text| if *len == full(address) { write!(text, "{address}") } else { write!(text, "{address}/{len}") })
        })
    });
}

fn printing(rounds: u32) {
    print("print IPv4 network", rounds, ipv4_random, |_| 32);
    print("print IPv6 network", rounds, ipv6_random, |_| 128);
    print("print IpCidr", rounds, ip_random, |address| if address.is_ipv4() { 32 } else { 128 });
}

// ---- bytes

/// The bytes of a network, and zeros after them.
type Bytes = [u8; 17];

/// One number out of what was read: the network's and the count of bytes.
fn read_number(network: u32, used: usize) -> u32 {
    network.rotate_left(5) ^ (used % 256) as u32
}

/// A network as numbers: whether it is of IPv4, its first address and its length.
type Either = (bool, u128, u8);

fn either(index: usize) -> Either {
    match ip_random(index) {
        (IpAddr::V4(first), len) => (true, u128::from(u32::from(first)), len),
        (IpAddr::V6(first), len) => (false, u128::from(first), len),
    }
}

/// The tag and the octets, and how many bytes they are.
fn to_compact((is_ipv4, first, len): Either) -> (Bytes, usize) {
    let mut bytes = [0; 17];
    if is_ipv4 {
        bytes[0] = len;
        bytes[1..5].copy_from_slice(&(first as u32).to_be_bytes());
        (bytes, 5)
    } else {
        bytes[0] = len.wrapping_add(0x40);
        bytes[1..].copy_from_slice(&first.to_be_bytes());
        (bytes, 17)
    }
}

/// The network whose bytes come first.
fn from_compact(bytes: &[u8]) -> Option<Either> {
    let (tag, octets) = bytes.split_first()?;
    match *tag {
        0..=32 => {
            let first = u32::from_be_bytes(*octets.first_chunk::<4>()?);
            let behind = u64::from(first) << *tag & 0xffff_ffff;
            (behind == 0).then_some((true, u128::from(first), *tag))
        }
        0x40..=0xc0 => {
            let first = u128::from_be_bytes(*octets.first_chunk::<16>()?);
            let len = *tag - 0x40;
            let behind = if len < 128 { first << len } else { 0 };
            (behind == 0).then_some((false, first, len))
        }
        _ => None,
    }
}

fn compact_bytes(rounds: u32) {
    let networks = list(either);
    row("write compact bytes", || {
        each(rounds, &networks, |network| {
            let (bytes, used) = to_compact(*network);
            bytes_number(bytes.get(..used).unwrap_or(&[]))
        })
    });
    let bytes = list(|index| to_compact(either(index)).0);
    row("read compact bytes", || {
        each(rounds, &bytes, |bytes| match from_compact(bytes) {
            Some((is_ipv4, first, len)) => read_number(with_length(folded(first), len), if is_ipv4 { 5 } else { 17 }),
            None => 1,
        })
    });
}

/// The length, and then as many octets of the number as hold it: all are written, and the count is told.
fn to_prefix_v4((first, len): Plain4) -> ([u8; 5], usize) {
    let mut bytes = [0; 5];
    bytes[0] = len;
    bytes[1..].copy_from_slice(&first.to_be_bytes());
    (bytes, 1 + usize::from(len).div_ceil(8))
}

fn to_prefix_v6((first, len): Plain6) -> (Bytes, usize) {
    let mut bytes = [0; 17];
    bytes[0] = len;
    bytes[1..].copy_from_slice(&first.to_be_bytes());
    (bytes, 1 + usize::from(len).div_ceil(8))
}

/// Those bytes, and zeros after them.
fn padded(bytes: &[u8]) -> Bytes {
    let mut padded = [0; 17];
    padded[..bytes.len()].copy_from_slice(bytes);
    padded
}

/// The length and the octets that come after it, as many as hold the prefix.
fn prefix_octets<const N: usize>(bytes: &Bytes) -> (u8, [u8; N], usize) {
    let len = bytes[0];
    let count = usize::from(len).div_ceil(8);
    let mut octets = [0; N];
    for (octet, byte) in octets.iter_mut().zip(&bytes[1..]).take(count) {
        *octet = *byte;
    }
    (len, octets, count)
}

fn prefix_bytes(rounds: u32) {
    let v4 = list(|index| plain_v4(ipv4_random(index)));
    row("write prefix bytes IPv4", || {
        each(rounds, &v4, |network| {
            let (bytes, used) = to_prefix_v4(*network);
            bytes_number(bytes.get(..used).unwrap_or(&[]))
        })
    });
    let v6 = list(|index| plain_v6(ipv6_random(index)));
    row("write prefix bytes IPv6", || {
        each(rounds, &v6, |network| {
            let (bytes, used) = to_prefix_v6(*network);
            bytes_number(bytes.get(..used).unwrap_or(&[]))
        })
    });
    let bytes: Vec<Bytes> = v4.iter().map(|it| to_prefix_v4(*it)).map(|(bytes, used)| padded(&bytes[..used])).collect();
    row("read prefix bytes IPv4", || {
        each(rounds, &bytes, |bytes| {
            let (len, octets, count) = prefix_octets(bytes);
            read_number(with_length(u32::from_be_bytes(octets) & ipv4_mask(len), len), 1 + count)
        })
    });
    let bytes: Vec<Bytes> = v6.iter().map(|it| to_prefix_v6(*it)).map(|(bytes, used)| padded(&bytes[..used])).collect();
    row("read prefix bytes IPv6", || {
        each(rounds, &bytes, |bytes| {
            let (len, octets, count) = prefix_octets(bytes);
            read_number(with_length(folded(u128::from_be_bytes(octets) & ipv6_mask(len)), len), 1 + count)
        })
    });
}

// ---- masks that are in hand

/// An address of either family.
enum Either4Or6 {
    V4(u32),
    V6(u128),
}

/// A network of either family, or all addresses.
enum AnyMasked {
    Any,
    V4(Masked<u32>),
    V6(Masked<u128>),
}

fn any_masked(index: usize) -> AnyMasked {
    match index {
        0 => AnyMasked::Any,
        at if is_ipv4(at) => AnyMasked::V4(masked_v4(network_v4(at))),
        at => AnyMasked::V6(masked_v6(network_v6(at))),
    }
}

fn either_number(index: usize) -> Either4Or6 {
    if is_ipv4(index) {
        Either4Or6::V4(ipv4_address(index).into())
    } else {
        Either4Or6::V6(ipv6_address(index).into())
    }
}

fn containing(rounds: u32) {
    let v4 = array(|index| masked_v4(network_v4(index)));
    let v6 = array(|index| masked_v6(network_v6(index)));
    let in_v4 = |network: &Masked<u32>, address: &u32| u32::from(*address & network.mask == network.first);
    let in_v6 = |network: &Masked<u128>, address: &u128| u32::from(*address & network.mask == network.first);
    let addresses = array(|index| u32::from(ipv4_address(index)));
    row("contains IPv4", || pairs(rounds, &v4, &addresses, in_v4));
    let addresses = array(|index| u128::from(ipv6_address(index)));
    row("contains IPv6", || pairs(rounds, &v6, &addresses, in_v6));
    row("contains AnyIpCidr", || {
        pairs(rounds, &array(any_masked), &array(either_number), |network, address| match (network, address) {
            (AnyMasked::Any, _) => 1,
            (AnyMasked::V4(network), Either4Or6::V4(address)) => in_v4(network, address),
            (AnyMasked::V6(network), Either4Or6::V6(address)) => in_v6(network, address),
            _ => 0,
        })
    });
    row("contains_cidr IPv4", || {
        pairs(rounds, &v4, &v4, |outer, inner| {
            u32::from(outer.mask <= inner.mask && inner.first & outer.mask == outer.first)
        })
    });
}

/// Steps by the mask of the network, in which the address takes the place of the first number.
fn stepping(rounds: u32) {
    let steps = array(|index| u128::from(random(index) >> (index % 64)));
    let v4 = array(|index| masked_v4(network_v4(index)));
    let moved = |host: &Masked<u32>, next: u32, wraps: bool| (host.first & host.mask | next & !host.mask) ^ u32::from(wraps);
    row("step up IPv4", || {
        pairs(rounds, &v4, &steps, |host, step| {
            let wraps = *step > u128::from(!(host.first | host.mask));
            moved(host, host.first.wrapping_add(*step as u32), wraps)
        })
    });
    row("step down IPv4", || {
        pairs(rounds, &v4, &steps, |host, step| {
            let wraps = *step > u128::from(host.first & !host.mask);
            moved(host, host.first.wrapping_sub(*step as u32), wraps)
        })
    });
    let v6 = array(|index| masked_v6(network_v6(index)));
    let moved = |host: &Masked<u128>, next: u128, wraps: bool| {
        folded(host.first & host.mask | next & !host.mask) ^ u32::from(wraps)
    };
    row("step up IPv6", || {
        pairs(rounds, &v6, &steps, |host, step| {
            moved(host, host.first.wrapping_add(*step), *step > !(host.first | host.mask))
        })
    });
    row("step down IPv6", || {
        pairs(rounds, &v6, &steps, |host, step| {
            moved(host, host.first.wrapping_sub(*step), *step > host.first & !host.mask)
        })
    });
}

// ---- order

/// Numbers that are ordered as networks of either family: the family, the first number and the length.
fn any_key(index: usize) -> (u8, u128, u8) {
    if index == 0 {
        (0, 0, 0)
    } else if is_ipv4(index) {
        let (first, len) = network_v4(index);
        (1, u128::from(first), len)
    } else {
        let (first, len) = network_v6(index);
        (2, first, len)
    }
}

fn order<T: Ord + Copy>(rounds: u32, of: &str, values: &[T]) {
    let cmp = |one: &T, other: &T| u32::from(one.cmp(other).is_lt());
    row(&format!("cmp {of}"), || pairs(rounds, values, values, cmp));
    row(&format!("sort 64 {of}"), || sorts(rounds, values));
}

fn ordering(rounds: u32) {
    order(rounds, "IPv4", &array(network_v4));
    order(rounds, "IPv6", &array(network_v6));
    order(rounds, "AnyIpCidr", &array(any_key));
}

// ---- bits: at the length of another network, where the network has that bit

fn bits_v4(rounds: u32) {
    let networks = array(network_v4);
    row("get of a bit IPv4", || {
        pairs(rounds, &networks, &networks, |&(first, len), &(_, i)| {
            if i < len { u32::from(first.wrapping_shl(i.into()) >> 31 == 1) } else { 2 }
        })
    });
    row("flip IPv4", || {
        pairs(rounds, &networks, &networks, |&(first, len), &(_, i)| {
            if i < len { with_length(first ^ (1u32 << 31).wrapping_shr(i.into()), len) } else { with_length(first, len) }
        })
    });
    row("clip and append IPv4", || {
        pairs(rounds, &networks, &networks, |&(first, len), &(_, i)| {
            if i < len {
                with_length(first & ipv4_mask(i) | (1u32 << 31).wrapping_shr(i.into()), i + 1)
            } else {
                with_length(first, len)
            }
        })
    });
    row("shared_prefix_len IPv4", || {
        pairs(rounds, &networks, &networks, |one, other| {
            (one.0 ^ other.0).leading_zeros().min(one.1.into()).min(other.1.into())
        })
    });
}

fn bits_v6(rounds: u32) {
    let networks = array(network_v6);
    row("get of a bit IPv6", || {
        pairs(rounds, &networks, &networks, |&(first, len), &(_, i)| {
            if i < len { u32::from(first.wrapping_shl(i.into()) >> 127 == 1) } else { 2 }
        })
    });
    row("flip IPv6", || {
        pairs(rounds, &networks, &networks, |&(first, len), &(_, i)| {
            if i < len {
                with_length(folded(first ^ (1u128 << 127).wrapping_shr(i.into())), len)
            } else {
                with_length(folded(first), len)
            }
        })
    });
    row("clip and append IPv6", || {
        pairs(rounds, &networks, &networks, |&(first, len), &(_, i)| {
            if i < len {
                with_length(folded(first & ipv6_mask(i) | (1u128 << 127).wrapping_shr(i.into())), i + 1)
            } else {
                with_length(folded(first), len)
            }
        })
    });
    row("shared_prefix_len IPv6", || {
        pairs(rounds, &networks, &networks, |one, other| {
            (one.0 ^ other.0).leading_zeros().min(one.1.into()).min(other.1.into())
        })
    });
}

// ---- walks

/// Counts numbers up, 256 of a family.
fn walking(rounds: u32) {
    let up_v4 = |sum, first: u32| (0..256).fold(sum, |sum, part| mixed(sum, first + part));
    let up_v6 = |sum, first: u128| (0..256).fold(sum, |sum, part| mixed(sum, folded(first + part)));
    let (v4, v6) = (0xc000_0200, 0x2001_0db8 << 96);
    row("walk IPv4", || time(rounds, 256, |rounds| (0..rounds).fold(0, |sum, _| up_v4(sum, black_box(v4)))));
    row("walk IPv6", || time(rounds, 256, |rounds| (0..rounds).fold(0, |sum, _| up_v6(sum, black_box(v6)))));
    row("walk IpCidr", || {
        time(rounds, 512, |rounds| (0..rounds).fold(0, |sum, _| up_v6(up_v4(sum, black_box(v4)), black_box(v6))))
    });
}
