//! Words and addresses as bytes, as files have them: of each number the lowest byte first.

use crate::address::Address;
use crate::halves::Ipv6Halves;
use crate::words::Words;

impl Words for &[[u8; 4]] {
    #[inline(always)]
    fn len(&self) -> usize {
        let slice: &[[u8; 4]] = self;
        slice.len()
    }

    #[inline(always)]
    fn word(&self, at: usize) -> u32 {
        let slice: &[[u8; 4]] = self;
        u32::from_le_bytes(slice[at])
    }
}

/// The four bytes of a `u32`, the lowest first.
impl Address for [u8; 4] {
    #[inline(always)]
    fn number(self) -> u128 {
        u32::from_le_bytes(self).number()
    }

    #[inline(always)]
    fn of(number: u128) -> [u8; 4] {
        (number as u32).to_le_bytes()
    }

    #[inline(always)]
    fn width() -> u32 {
        u32::width()
    }

    #[inline(always)]
    fn padding() -> u32 {
        u32::padding()
    }

    #[inline(always)]
    fn padded_width() -> u32 {
        u32::padded_width()
    }

    #[inline]
    fn steps_for(networks: usize) -> u32 {
        u32::steps_for(networks)
    }

    #[inline(always)]
    fn block(self, shift: u32) -> usize {
        u32::from_le_bytes(self).block(shift)
    }

    #[inline(always)]
    fn behind(self, count: u32) -> [u8; 4] {
        u32::from_le_bytes(self).behind(count).to_le_bytes()
    }

    #[inline(always)]
    fn part(self) -> u32 {
        u32::from_le_bytes(self).part()
    }

    #[inline(always)]
    fn list_word(self) -> u32 {
        u32::from_le_bytes(self).list_word()
    }
}

/// The bytes of [`Ipv6Halves`]: those of the higher half and those of the lower one, of each the lowest first.
impl Address for [[u8; 8]; 2] {
    #[inline(always)]
    fn number(self) -> u128 {
        halves(self).number()
    }

    #[inline(always)]
    fn of(number: u128) -> [[u8; 8]; 2] {
        let halves = Ipv6Halves::of(number);
        [halves.high.to_le_bytes(), halves.low.to_le_bytes()]
    }

    #[inline(always)]
    fn width() -> u32 {
        Ipv6Halves::width()
    }

    #[inline(always)]
    fn padding() -> u32 {
        Ipv6Halves::padding()
    }

    #[inline(always)]
    fn padded_width() -> u32 {
        Ipv6Halves::padded_width()
    }

    #[inline]
    fn steps_for(networks: usize) -> u32 {
        Ipv6Halves::steps_for(networks)
    }

    #[inline(always)]
    fn block(self, shift: u32) -> usize {
        halves(self).block(shift)
    }

    #[inline(always)]
    fn behind(self, count: u32) -> [[u8; 8]; 2] {
        let behind = halves(self).behind(count);
        [behind.high.to_le_bytes(), behind.low.to_le_bytes()]
    }

    #[inline(always)]
    fn part(self) -> u32 {
        halves(self).part()
    }

    #[inline(always)]
    fn list_word(self) -> u32 {
        halves(self).list_word()
    }
}

/// The number that the bytes are.
#[inline(always)]
fn halves(bytes: [[u8; 8]; 2]) -> Ipv6Halves {
    Ipv6Halves {
        high: u64::from_le_bytes(bytes[0]),
        low: u64::from_le_bytes(bytes[1]),
    }
}
