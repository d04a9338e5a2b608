//! The values of rows and how rows are timed, as `bench` has them in `values.rt`, `samples.rt` and `bench.rt`.
#![allow(dead_code)] // each program uses a part
use std::fmt::{Display, Write};
use std::hint::black_box;
use std::net::{IpAddr, Ipv4Addr, Ipv6Addr};
use std::time::Instant;

/// How many values a row has that takes one after the other, how many one that takes pairs, and how often that goes over
/// them in a round.
pub const MANY: usize = 16_384;
pub const COUNT: usize = 64;
const PASSES: u32 = 16;

// ---- the values

const IPV4: [u32; 4] = [0x0a01_0203, 0x6440_0a0b, 0xac10_fe01, 0xc633_6407];
const IPV6: [u128; 4] = [
    0x2001_0db8_0000_0001_0000_0000_0000_0001,
    0x5f00_1234_5678_9abc_def0_fedc_ba98_7654,
    0x8000_0000_0000_0000_0000_0000_c000_0201,
    0xfe80_0000_0000_0000_0001_0002_0003_0004,
];
const IPV4_LENGTHS: [u8; 32] = [
    24, 24, 24, 24, 24, 24, 24, 24, 24, 24, 24, 24, 24, 24, 24, 24, 24, 24, 23, 23, 22, 22, 22, 22, 21, 20, 20, 19, 19,
    18, 17, 16,
];
const IPV6_LENGTHS: [u8; 32] = [
    48, 48, 48, 48, 48, 48, 48, 48, 48, 48, 48, 48, 48, 48, 48, 32, 32, 32, 32, 44, 44, 44, 40, 40, 40, 36, 36, 46, 47,
    29, 42, 64,
];

pub fn random(index: usize) -> u64 {
    let state = (index as u64).wrapping_add(1).wrapping_mul(0x9e37_79b9_7f4a_7c15);
    let state = (state ^ state >> 30).wrapping_mul(0xbf58_476d_1ce4_e5b9);
    let state = (state ^ state >> 27).wrapping_mul(0x94d0_49bb_1331_11eb);
    state ^ state >> 31
}

pub fn ipv4_mask(len: u8) -> u32 {
    !u32::MAX.checked_shr(u32::from(len)).unwrap_or(0)
}

pub fn ipv6_mask(len: u8) -> u128 {
    !u128::MAX.checked_shr(u32::from(len)).unwrap_or(0)
}

/// A random host of IPv4, and of IPv6.
pub fn ipv4_sample(index: usize) -> (Ipv4Addr, u8) {
    let len = IPV4_LENGTHS[(random(index ^ 0x2000_0000) % 32) as usize];
    (Ipv4Addr::from((random(index) >> 32) as u32), len)
}

pub fn ipv6_sample(index: usize) -> (Ipv6Addr, u8) {
    let (high, low) = (random(index), random(index ^ 0x4000_0000));
    let network = u128::from(high >> 3 | 1 << 61) << 64;
    let address = match low % 4 {
        0 => network | u128::from(low),
        1 => network | u128::from(low >> 52),
        2 => network & (u128::MAX << 80),
        _ => network & (u128::MAX << 96) | u128::from(low & 0x00ff_000f_0fff_00ff),
    };
    let len = IPV6_LENGTHS[(random(index ^ 0x2000_0000) % 32) as usize];
    (Ipv6Addr::from(address), len)
}

/// Its network.
pub fn ipv4_random(index: usize) -> (Ipv4Addr, u8) {
    let (address, len) = ipv4_sample(index);
    (Ipv4Addr::from(u32::from(address) & ipv4_mask(len)), len)
}

pub fn ipv6_random(index: usize) -> (Ipv6Addr, u8) {
    let (address, len) = ipv6_sample(index);
    (Ipv6Addr::from(u128::from(address) & ipv6_mask(len)), len)
}

pub fn ip_random(index: usize) -> (IpAddr, u8) {
    if random(index ^ 0x1000_0000) % 2 == 0 {
        let (address, len) = ipv4_random(index);
        (IpAddr::V4(address), len)
    } else {
        let (address, len) = ipv6_random(index);
        (IpAddr::V6(address), len)
    }
}

/// The 64 networks of each family around four addresses.
pub fn ipv4_network(index: usize) -> (Ipv4Addr, u8) {
    let len = 2 + 2 * (index % 16) as u8;
    (Ipv4Addr::from(IPV4[index / 16 % 4] & ipv4_mask(len)), len)
}

pub fn ipv6_network(index: usize) -> (Ipv6Addr, u8) {
    let group = index / 16 % 4;
    let len = (8 + 8 * (index % 16) - group) as u8;
    (Ipv6Addr::from(IPV6[group] & ipv6_mask(len)), len)
}

pub fn ipv4_address(index: usize) -> Ipv4Addr {
    Ipv4Addr::from(IPV4[index % 4] ^ (0x9e37_79b9 >> (1 + 2 * (index / 4 % 16))))
}

pub fn ipv6_address(index: usize) -> Ipv6Addr {
    Ipv6Addr::from(IPV6[index % 4] ^ (0x9e37_79b9_7f4a_7c15_f39c_c060_5ced_c834u128 >> (4 + 8 * (index / 4 % 16))))
}

pub fn is_ipv4(index: usize) -> bool {
    index / 4 % 2 == 0
}

pub const LOOSE_ADDRESSES: [&str; 8] = [
    "127.1", "10.0.0.1", "0x7f000001", "3221225985", "192.0.513", "0300.0.2.1", "0xc0.0.0x201", "198.51.100.255",
];

// ---- one number out of a result

pub fn folded(number: u128) -> u32 {
    let half = number ^ number >> 64;
    (half ^ half >> 32) as u32
}

pub fn with_length(address: u32, len: u8) -> u32 {
    address ^ u32::from(len) << 16
}

pub fn mixed(sum: u32, next: u32) -> u32 {
    sum.wrapping_mul(5) ^ next
}

pub fn bytes_number(bytes: &[u8]) -> u32 {
    let mut sum = bytes.len() as u64;
    match bytes.last_chunk::<8>() {
        Some(last) => {
            for part in bytes.chunks_exact(8) {
                let eight = part.first_chunk::<8>().unwrap_or(last);
                sum = sum.rotate_left(9) ^ u64::from_le_bytes(*eight);
            }
            sum = sum.rotate_left(9) ^ u64::from_le_bytes(*last);
        }
        None => bytes.iter().for_each(|byte| sum = sum.rotate_left(9) ^ u64::from(*byte)),
    }
    folded(u128::from(sum))
}

pub trait Number {
    fn number(&self) -> u32;
}

impl Number for Ipv4Addr {
    fn number(&self) -> u32 {
        u32::from(*self)
    }
}

impl Number for Ipv6Addr {
    fn number(&self) -> u32 {
        folded(u128::from(*self))
    }
}

impl Number for IpAddr {
    fn number(&self) -> u32 {
        match self {
            IpAddr::V4(address) => address.number(),
            IpAddr::V6(address) => address.number(),
        }
    }
}

impl<T: Number> Number for Option<T> {
    fn number(&self) -> u32 {
        self.as_ref().map_or(1, Number::number)
    }
}

// ---- how rows are timed

/// The nanoseconds of a call, the least of five turns, and a number that hangs on all results of a turn.
pub type Timed = (f64, u32);

/// Times work that makes so many calls in a round.
pub fn time(rounds: u32, calls: usize, mut work: impl FnMut(u32) -> u32) -> Timed {
    let (mut least, mut number) = (f64::MAX, 0);
    for _ in 0..5 {
        let start = Instant::now();
        number = black_box(work(rounds));
        least = least.min(start.elapsed().as_nanos() as f64);
    }
    (least / (f64::from(rounds.max(1)) * calls as f64), number)
}

/// The rounds of a row with `MANY` values, which make as many calls as those of one with pairs.
pub fn rounds_of_many(rounds: u32) -> u32 {
    (rounds / 16).max(1)
}

/// A call with each value in a round.
pub fn each<T>(rounds: u32, values: &[T], call: impl Fn(&T) -> u32) -> Timed {
    time(rounds, values.len(), |rounds| {
        (0..rounds).fold(0, |sum, _| values.iter().fold(sum, |sum, value| mixed(sum, call(value))))
    })
}

pub fn partner(round: u32, index: usize) -> usize {
    index.wrapping_mul(2 * (round as usize % 32) + 1).wrapping_add(round as usize / 32) % COUNT
}

/// A call with each value and one of another list, which differs from round to round.
pub fn pairs<T, U>(rounds: u32, ones: &[T], others: &[U], call: impl Fn(&T, &U) -> u32) -> Timed {
    time(rounds, ones.len() * PASSES as usize, |rounds| {
        let mut sum = 0;
        for round in 0..rounds * PASSES {
            for (index, one) in ones.iter().enumerate() {
                if let Some(other) = others.get(partner(round, index)) {
                    sum = mixed(sum, call(one, other));
                }
            }
        }
        sum
    })
}

/// Sorts values from another order, and looks one of them up.
fn sort<T: Ord + Copy>(order: &u32, values: &[T]) -> u32 {
    let mut sorted: [T; COUNT] = std::array::from_fn(|index| values[partner(*order, index)]);
    sorted.sort_unstable();
    sorted.binary_search(&values[partner(*order, 0)]).unwrap_or(COUNT) as u32 & 63
}

/// A sort of the values and a search, with each of 64 orders.
pub fn sorts<T: Ord + Copy>(rounds: u32, values: &[T]) -> Timed {
    let orders: Vec<u32> = (0..COUNT).map(|index| (random(index) >> 32) as u32).collect();
    let many = vec![values.to_vec(); COUNT];
    pairs((rounds / 16).max(1), &orders, &many, |order, values| sort(order, values))
}

/// The rounds that the program is asked for.
pub fn rounds() -> u32 {
    std::env::args().nth(1).and_then(|word| word.parse().ok()).unwrap_or(300)
}

/// Whether the row is to be done.
pub fn wants(name: &str) -> bool {
    std::env::args().nth(2).is_none_or(|row| row == name)
}

// ---- strings

/// The strings of values.
pub fn texts<A: Display>(value: impl Fn(usize) -> (A, u8), with_len: bool) -> Vec<String> {
    let text = |(address, len): (A, u8)| if with_len { format!("{address}/{len}") } else { address.to_string() };
    (0..MANY).map(|index| text(value(index))).collect()
}

/// What is written into a buffer, as one number.
pub fn written(write: impl FnOnce(&mut Text) -> std::fmt::Result) -> u32 {
    let mut text = Text([0; 64], 0);
    let _ = write(&mut text);
    bytes_number(&text.0[..text.1])
}

/// A buffer for a string.
pub struct Text([u8; 64], usize);

impl Write for Text {
    fn write_str(&mut self, part: &str) -> std::fmt::Result {
        let end = self.1 + part.len();
        self.0.get_mut(self.1..end).ok_or(std::fmt::Error)?.copy_from_slice(part.as_bytes());
        self.1 = end;
        Ok(())
    }
}
