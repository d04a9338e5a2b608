//! Numbers of several bytes, the most significant first.

/// The number of two bytes.
#[inline]
pub(crate) fn two(bytes: &[u8], at: usize) -> u32 {
    u32::from(bytes[at]) * 256 + u32::from(bytes[at + 1])
}

/// The number of three bytes.
#[inline]
pub(crate) fn three(bytes: &[u8], at: usize) -> u32 {
    u32::from(bytes[at]) * 65536 + u32::from(bytes[at + 1]) * 256 + u32::from(bytes[at + 2])
}

/// The number of four bytes.
#[inline]
pub(crate) fn four(bytes: &[u8], at: usize) -> u32 {
    u32::from(bytes[at]) * 0x100_0000
        + u32::from(bytes[at + 1]) * 65536
        + u32::from(bytes[at + 2]) * 256
        + u32::from(bytes[at + 3])
}

/// The number of so many bytes.
pub(crate) fn number(bytes: &[u8], at: usize, count: u32) -> u128 {
    let mut value: u128 = 0;
    let mut place = at;
    let mut left = count;
    while left > 0 {
        value = value * 256 + u128::from(bytes[place]);
        place += 1;
        left -= 1;
    }
    value
}
