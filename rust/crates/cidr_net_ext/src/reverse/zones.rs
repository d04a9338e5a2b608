//! The names in reverse DNS of the zones of a network.

use crate::address::AddressExt;
use crate::reverse::name::name_of;
use crate::subnets::Subnets;
use cidr_support::arrayvec::ArrayString;
use cidr::names::{Address, Cidr, Family, Inet, InetPair};
use core::iter::FusedIterator;

/// The names of the zones of a network that are left, ascending. The call `reverse_zones` makes it.
///
/// `next` takes the lowest of them and `next_back` the highest, in constant time. Once either has returned `None`, both
/// return `None` from then on. It does not allocate.
pub struct ReverseZones<C: Cidr> {
    networks: Subnets<C>,
}

impl<C: Cidr> ReverseZones<C> {
    /// The names of these networks.
    #[inline]
    pub(crate) fn _new(networks: Subnets<C>) -> ReverseZones<C> {
        ReverseZones { networks }
    }
}

impl<C: Cidr> Iterator for ReverseZones<C>
where
    C::Address: Address<Cidr = C> + AddressExt,
    <C::Address as Address>::Inet: Inet<Address = C::Address>,
    <C::Address as Address>::InetPair: InetPair<Address = C::Address>,
{
    type Item = ArrayString<72>;

    #[inline]
    fn next(&mut self) -> Option<ArrayString<72>> {
        name_of(&self.networks.next()?)
    }

    #[inline]
    fn size_hint(&self) -> (usize, Option<usize>) {
        self.networks.size_hint()
    }
}

impl<C: Cidr> DoubleEndedIterator for ReverseZones<C>
where
    C::Address: Address<Cidr = C> + AddressExt,
    <C::Address as Address>::Inet: Inet<Address = C::Address>,
    <C::Address as Address>::InetPair: InetPair<Address = C::Address>,
{
    #[inline]
    fn next_back(&mut self) -> Option<ArrayString<72>> {
        name_of(&self.networks.next_back()?)
    }
}

impl<C: Cidr> FusedIterator for ReverseZones<C>
where
    C::Address: Address<Cidr = C> + AddressExt,
    <C::Address as Address>::Inet: Inet<Address = C::Address>,
    <C::Address as Address>::InetPair: InetPair<Address = C::Address>,
{}

/// The least prefix length from this one on that ends at a label.
#[inline]
pub(crate) fn zone_length(family: Family, len: u8) -> u8 {
    match family {
        Family::Ipv4 => (len + 7) / 8 * 8,
        Family::Ipv6 => (len + 3) / 4 * 4,
    }
}
