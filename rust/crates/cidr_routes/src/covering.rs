//! The payloads that cover a route.

use crate::origins::Payload;
use cidr::NetworkBits;
use core::iter::FusedIterator;

/// The payloads that cover a route, from the longest network to the shortest. The call `covering` makes it.
pub struct Covering<'a, C: NetworkBits + Copy> {
    pub(crate) payloads: &'a [Payload<C>],
    /// For each payload, how many there are up to the last before it whose network contains its network.
    pub(crate) above: &'a [usize],
    pub(crate) route: C,
    /// How many payloads there are up to the next.
    pub(crate) end: usize,
}

impl<'a, C: NetworkBits + Copy> Iterator for Covering<'a, C> {
    type Item = &'a Payload<C>;

    #[inline]
    fn next(&mut self) -> Option<&'a Payload<C>> {
        if self.end == 0 {
            return None;
        }
        let place = self.end - 1;
        self.end = self.above[place];
        Some(&self.payloads[place])
    }
}

impl<'a, C: NetworkBits + Copy> FusedIterator for Covering<'a, C> {}
