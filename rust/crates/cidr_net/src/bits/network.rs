//! Networks of one family as strings of bits.

use crate::cidr::network::NetworkCalls as _;
use crate::inet::host::HostCalls as _;
use crate::inet_pair::host_pair::HostPairCalls as _;
use crate::bits::{BitString, NetworkBits, place};
use crate::cidr::network::Network;
use crate::internal_traits::single_bits::SingleBits;
use core::cmp::min;

/// How many bits both networks begin with.
#[inline]
pub(crate) fn shared_length<A: SingleBits>(one: &Network<A>, other: &Network<A>) -> u8 {
    // the lengths first, which need no branch
    let shorter = min(one.network_length(), other.network_length());
    min(
        shorter,
        one.first_address().shared_len(other.first_address()),
    )
}

impl<A: SingleBits> BitString for Network<A> {
    #[inline]
    fn len(&self) -> usize {
        usize::from(self.network_length())
    }

    #[inline]
    fn room(&self) -> usize {
        usize::from(A::FAMILY.len() - self.network_length())
    }

    #[inline]
    fn get(&self, i: usize) -> bool {
        assert!(i < self.len());
        self.first_address().bit(place(i, self.network_length()))
    }

    #[inline]
    fn set(&mut self, i: usize, b: bool) {
        assert!(i < self.len());
        let len = self.network_length();
        *self = Network::<A>::new_unchecked(self.first_address().with_bit(place(i, len), b), len);
    }

    #[inline]
    fn flip(&mut self, i: usize) {
        assert!(i < self.len());
        let len = self.network_length();
        let flipped = self.first_address().with_flipped_bit(place(i, len));
        *self = Network::<A>::new_unchecked(flipped, len);
    }

    #[inline]
    fn clip(&mut self, k: usize) {
        let len = self.network_length();
        if k < usize::from(len) {
            *self = Network::<A>::holding(self.first_address(), place(k, len));
        }
    }

    #[inline]
    fn append(&mut self, b: bool) {
        assert!(0 < self.room());
        let len = self.network_length();
        *self = Network::<A>::new_unchecked(self.first_address().with_bit(len, b), len + 1);
    }

    #[inline]
    fn null() -> Network<A> {
        Network::<A>::holding(A::mask_of(0), 0)
    }

    #[inline]
    fn shared_prefix_len(&self, other: &Network<A>) -> usize {
        usize::from(shared_length(self, other))
    }
}

impl<A: SingleBits> NetworkBits for Network<A> {}
