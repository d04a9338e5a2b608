//! The random networks and numbers of `values.rt` and `routes.rt` of `bench`.

const IPV4_LENGTHS: [u32; 32] = [
    24, 24, 24, 24, 24, 24, 24, 24, 24, 24, 24, 24, 24, 24, 24, 24, 24, 24, 23, 23, 22, 22, 22, 22,
    21, 20, 20, 19, 19, 18, 17, 16,
];

const IPV6_LENGTHS: [u32; 32] = [
    48, 48, 48, 48, 48, 48, 48, 48, 48, 48, 48, 48, 48, 48, 48, 32, 32, 32, 32, 44, 44, 44, 40, 40,
    40, 36, 36, 46, 47, 29, 42, 64,
];

const IPV6_STARTS: [u16; 16] = [
    0x2001, 0x2001, 0x2400, 0x2402, 0x2404, 0x2406, 0x2409, 0x240e, 0x2600, 0x2602, 0x2604, 0x2607,
    0x2803, 0x2a00, 0x2a02, 0x2c0f,
];

/// The bit that no IPv6 route has set.
const IPV6_BIT: u128 = 1 << 107;

/// How many addresses are asked for.
pub const ASKED: usize = 50_000;

pub fn random(index: usize) -> u64 {
    let state = (index as u64).wrapping_add(1).wrapping_mul(0x9e37_79b9_7f4a_7c15);
    let state = (state ^ state >> 30).wrapping_mul(0xbf58_476d_1ce4_e5b9);
    let state = (state ^ state >> 27).wrapping_mul(0x94d0_49bb_1331_11eb);
    state ^ state >> 31
}

pub fn random_ipv4(index: usize) -> u32 {
    (random(index) >> 32) as u32
}

fn random_start(index: usize) -> u128 {
    let high = random(index);
    let start = u64::from(IPV6_STARTS[(high % 16) as usize]);
    u128::from(start << 48 | high >> 16) << 64 | u128::from(random(index ^ 0x4000_0000))
}

/// The numbers of the addresses of a family, and its networks: a first address and a prefix length.
pub trait Address: Ord + Copy {
    const WIDTH: u32;
    const ZERO: Self;
    fn before(self) -> Self;
    fn after(self) -> Self;
    /// The first bits, and unset ones behind.
    fn masked(self, len: u32) -> Self;
    /// The last address of the network of this length.
    fn last(self, len: u32) -> Self;
    fn bit(self, index: u32) -> usize;
    fn wide(self) -> u128;
    fn longer_route(index: usize, more: u32) -> (Self, u32);
    /// An address that no route has.
    fn outside(index: usize) -> Self;
    /// An address in the network of this length.
    fn inside(self, len: u32, random: u64) -> Self;
}

impl Address for u32 {
    const WIDTH: u32 = 32;
    const ZERO: u32 = 0;

    fn before(self) -> u32 {
        self.saturating_sub(1)
    }

    fn after(self) -> u32 {
        self.saturating_add(1)
    }

    fn masked(self, len: u32) -> u32 {
        self & !u32::MAX.checked_shr(len).unwrap_or(0)
    }

    fn last(self, len: u32) -> u32 {
        self | u32::MAX.checked_shr(len).unwrap_or(0)
    }

    fn bit(self, index: u32) -> usize {
        (self >> (31 - index) & 1) as usize
    }

    fn wide(self) -> u128 {
        u128::from(self)
    }

    fn longer_route(index: usize, more: u32) -> (u32, u32) {
        let len = IPV4_LENGTHS[(random(index ^ 0x2000_0000) % 32) as usize] + more;
        let len = len.min(32);
        ((random_ipv4(index) & 0xfeff_ffff).masked(len), len)
    }

    fn outside(index: usize) -> u32 {
        random_ipv4(index) | 0x0100_0000
    }

    fn inside(self, len: u32, random: u64) -> u32 {
        self | random as u32 & !u32::MAX.masked(len)
    }
}

impl Address for u128 {
    const WIDTH: u32 = 128;
    const ZERO: u128 = 0;

    fn before(self) -> u128 {
        self.saturating_sub(1)
    }

    fn after(self) -> u128 {
        self.saturating_add(1)
    }

    fn masked(self, len: u32) -> u128 {
        self & !u128::MAX.checked_shr(len).unwrap_or(0)
    }

    fn last(self, len: u32) -> u128 {
        self | u128::MAX.checked_shr(len).unwrap_or(0)
    }

    fn bit(self, index: u32) -> usize {
        (self >> (127 - index) & 1) as usize
    }

    fn wide(self) -> u128 {
        self
    }

    fn longer_route(index: usize, more: u32) -> (u128, u32) {
        let len = IPV6_LENGTHS[(random(index ^ 0x2000_0000) % 32) as usize] + more;
        let len = len.min(128);
        ((random_start(index) & !IPV6_BIT).masked(len), len)
    }

    fn outside(index: usize) -> u128 {
        random_start(index) | IPV6_BIT
    }

    fn inside(self, len: u32, random: u64) -> u128 {
        let host = u128::from(random) << 64 | u128::from(random);
        self | host & !u128::MAX.masked(len)
    }
}
