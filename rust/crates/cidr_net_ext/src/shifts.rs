//! Numbers of at most 128 bits, shifted.

/// Whether the number has at most so many bits.
#[inline]
pub(crate) fn fits(number: u128, count: u8) -> bool {
    count >= 128 || number >> count == 0
}

/// The number with so many zeros behind its bits.
#[inline]
pub(crate) fn shifted(number: u128, zeros: u8) -> u128 {
    if number == 0 { 0 } else { number << zeros }
}

/// The greatest number of so many bits.
#[inline]
pub(crate) fn greatest(count: u8) -> u128 {
    if count == 0 {
        0
    } else {
        u128::MAX >> (128 - count)
    }
}

/// How many bits a number has that are all ones, or `None` where one below the highest is zero.
#[inline]
pub(crate) fn count_of_ones(number: u128) -> Option<u8> {
    let count = (128 - number.leading_zeros()) as u8;
    if number == greatest(count) {
        Some(count)
    } else {
        None
    }
}
