//! Hosts of one family as strings of bits: those of their networks.

use crate::cidr::network::NetworkCalls as _;
use crate::inet::host::HostCalls as _;
use crate::inet_pair::host_pair::HostPairCalls as _;
use crate::bits::{BitString, place};
use crate::inet::host::Host;
use crate::internal_traits::single_bits::SingleBits;
use core::cmp::min;

impl<A: SingleBits> BitString for Host<A> {
    #[inline]
    fn len(&self) -> usize {
        // the call tells the proof how many bits the address has
        self.address().has_width();
        usize::from(self.network_length())
    }

    #[inline]
    fn room(&self) -> usize {
        // the call tells the proof how many bits the address has
        self.address().has_width();
        usize::from(A::FAMILY.len() - self.network_length())
    }

    #[inline]
    fn get(&self, i: usize) -> bool {
        assert!(i < self.len());
        self.address().bit(place(i, self.network_length()))
    }

    #[inline]
    fn set(&mut self, i: usize, b: bool) {
        assert!(i < self.len());
        let len = self.network_length();
        *self = Host::<A>::new_unchecked(self.address().with_bit(place(i, len), b), len);
    }

    #[inline]
    fn flip(&mut self, i: usize) {
        assert!(i < self.len());
        let len = self.network_length();
        *self = Host::<A>::new_unchecked(self.address().with_flipped_bit(place(i, len)), len);
    }

    #[inline]
    fn clip(&mut self, k: usize) {
        let (address, len) = (self.address(), self.network_length());
        let width = A::FAMILY.len();
        if k < usize::from(width) {
            let k = place(k, width);
            *self = Host::<A>::new_unchecked(address.first_in(k), min(len, k));
        }
    }

    #[inline]
    fn append(&mut self, b: bool) {
        assert!(0 < self.room());
        let (address, len) = (self.address(), self.network_length());
        *self = Host::<A>::new_unchecked(address.with_bit(len, b), len + 1);
    }

    #[inline]
    fn null() -> Host<A> {
        Host::<A>::new_unchecked(A::mask_of(0), 0)
    }

    #[inline]
    fn shared_prefix_len(&self, other: &Host<A>) -> usize {
        // the lengths first, which need no branch
        let shorter = min(self.network_length(), other.network_length());
        usize::from(min(shorter, self.address().shared_len(other.address())))
    }
}
