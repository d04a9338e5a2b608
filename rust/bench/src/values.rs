//! What the work is done on: addresses, networks and texts, as plain numbers.

/// How many addresses, networks or hosts the work goes over in a round.
pub const COUNT: usize = 64;

/// Four IPv4 addresses whose first two bits differ.
const IPV4: [u32; 4] = [0x0a01_0203, 0x6440_0a0b, 0xac10_fe01, 0xc633_6407];

/// Four IPv6 addresses whose first two bits differ.
const IPV6: [u128; 4] = [
    0x2001_0db8_0000_0001_0000_0000_0000_0001,
    0x5f00_1234_5678_9abc_def0_fedc_ba98_7654,
    0x8000_0000_0000_0000_0000_0000_c000_0201,
    0xfe80_0000_0000_0000_0001_0002_0003_0004,
];

/// The first number and the length of one of 64 different IPv4 networks: sixteen, one in the other, around each of
/// four addresses.
pub fn ipv4_network(index: usize) -> (u32, u8) {
    let len = 2 + 2 * (index % 16);
    let mask = u32::MAX << (32 - len);
    (IPV4[index / 16 % 4] & mask, len as u8)
}

/// The same of IPv6.
pub fn ipv6_network(index: usize) -> (u128, u8) {
    let group = index / 16 % 4;
    let len = 8 + 8 * (index % 16) - group;
    let mask = u128::MAX << (128 - len);
    (IPV6[group] & mask, len as u8)
}

/// The number of one of 64 IPv4 addresses, each in some of the networks.
pub fn ipv4_address(index: usize) -> u32 {
    IPV4[index % 4] ^ (0x9e37_79b9 >> (1 + 2 * (index / 4 % 16)))
}

/// The same of IPv6.
pub fn ipv6_address(index: usize) -> u128 {
    IPV6[index % 4] ^ (0x9e37_79b9_7f4a_7c15_f39c_c060_5ced_c834 >> (4 + 8 * (index / 4 % 16)))
}

/// Whether the value with this index is of IPv4, where there are values of both families.
pub fn is_ipv4(index: usize) -> bool {
    index / 4 % 2 == 0
}

/// The index that goes with another one in a round: each in turn, in an order that changes with the round.
pub fn partner(round: u32, index: usize) -> usize {
    let round = round as usize;
    let stride = 2 * (round % 32) + 1;
    index.wrapping_mul(stride).wrapping_add(round / 32) % COUNT
}

/// One number out of two, so that no step of a loop can be left out.
pub fn mixed(sum: u32, next: u32) -> u32 {
    sum.wrapping_mul(5) ^ next
}

/// How many different values a row has that takes them one after the other: more than a processor can learn to foresee.
pub const MANY: usize = 16_384;

/// How long the prefixes of an IPv4 routing table are: more than half have 24 bits, nearly all others 16 to 23.
const IPV4_LENGTHS: [u8; 32] = [
    24, 24, 24, 24, 24, 24, 24, 24, 24, 24, 24, 24, 24, 24, 24, 24, 24, 24, 23, 23, 22, 22, 22, 22, 21, 20, 20, 19, 19,
    18, 17, 16,
];

/// The same of IPv6: nearly half have 48 bits, most others 29 to 47.
const IPV6_LENGTHS: [u8; 32] = [
    48, 48, 48, 48, 48, 48, 48, 48, 48, 48, 48, 48, 48, 48, 48, 32, 32, 32, 32, 44, 44, 44, 40, 40, 40, 36, 36, 46, 47,
    29, 42, 64,
];

/// Number `index` of a fixed sequence in which none can be foreseen from those before it (SplitMix64).
pub fn random(index: usize) -> u64 {
    let state = (index as u64).wrapping_add(1).wrapping_mul(0x9e37_79b9_7f4a_7c15);
    let state = (state ^ state >> 30).wrapping_mul(0xbf58_476d_1ce4_e5b9);
    let state = (state ^ state >> 27).wrapping_mul(0x94d0_49bb_1331_11eb);
    state ^ state >> 31
}

/// A random IPv4 address.
pub fn random_ipv4(index: usize) -> u32 {
    (random(index) >> 32 & 0xffff_ffff) as u32
}

/// A random IPv6 address of 2000::/3, as they occur: with a random interface, with a small one, with none, and with
/// short groups.
pub fn random_ipv6(index: usize) -> u128 {
    let high = random(index);
    let low = random(index ^ 0x4000_0000);
    let network = u128::from(high >> 3 | 1 << 61) << 64;
    match low % 4 {
        0 => network | u128::from(low),
        1 => network | u128::from(low >> 52),
        2 => network & (u128::MAX << 80),
        _ => network & (u128::MAX << 96) | u128::from(low & 0x00ff_000f_0fff_00ff),
    }
}

/// A prefix length of IPv4 as they occur.
pub fn random_ipv4_len(index: usize) -> u8 {
    IPV4_LENGTHS[(random(index ^ 0x2000_0000) % 32) as usize].min(32)
}

/// The same of IPv6.
pub fn random_ipv6_len(index: usize) -> u8 {
    IPV6_LENGTHS[(random(index ^ 0x2000_0000) % 32) as usize].min(128)
}
