//! The hosts of one family by the trait of hosts, once over both families.

use crate::cidr::network::NetworkCalls as _;
use crate::inet::host::HostCalls as _;
use crate::inet_pair::host_pair::HostPairCalls as _;
use crate::addr::v4::Ipv4Addr;
use crate::addr::v6::Ipv6Addr;
use crate::cidr::network::Network;
use crate::errors::NetworkLengthTooLongError;
use crate::family::Family;
use crate::inet::host::Host;
use crate::internal_traits::address_bits::AddressText;
use crate::traits::{Address, Inet};

/// An address of one family, which its two traits know by the same family and the same bits.
pub trait OneFamily: Sized + AddressText + Address<Inet = Host<Self>, Cidr = Network<Self>> {}

impl OneFamily for Ipv4Addr {}

impl OneFamily for Ipv6Addr {}

impl<A: OneFamily> Inet for Host<A> {
    type Address = A;

    #[inline]
    fn new(addr: A, len: u8) -> Result<Host<A>, NetworkLengthTooLongError> {
        <Host<A> as crate::inet::host::HostCalls<A>>::new(addr, len)
    }

    #[inline]
    fn new_host(addr: A) -> Host<A> {
        <Host<A> as crate::inet::host::HostCalls<A>>::new_host(addr)
    }

    #[inline]
    fn increment(&mut self) -> bool {
        crate::inet::host::HostCalls::increment(self)
    }

    #[inline]
    fn decrement(&mut self) -> bool {
        crate::inet::host::HostCalls::decrement(self)
    }

    #[inline]
    fn next(self) -> Option<Host<A>> {
        crate::inet::host::HostCalls::next(self)
    }

    #[inline]
    fn previous(self) -> Option<Host<A>> {
        crate::inet::host::HostCalls::previous(self)
    }

    #[inline]
    fn overflowing_add(self, step: u128) -> (Host<A>, bool) {
        crate::inet::host::HostCalls::overflowing_add(self, step)
    }

    #[inline]
    fn overflowing_sub(self, step: u128) -> (Host<A>, bool) {
        crate::inet::host::HostCalls::overflowing_sub(self, step)
    }

    #[inline]
    fn network(&self) -> Network<A> {
        crate::inet::host::HostCalls::network(self)
    }

    #[inline]
    fn address(&self) -> A {
        crate::inet::host::HostCalls::address(self)
    }

    #[inline]
    fn first_address(&self) -> A {
        crate::inet::host::HostCalls::first_address(self)
    }

    #[inline]
    fn first(&self) -> Host<A> {
        crate::inet::host::HostCalls::first(self)
    }

    #[inline]
    fn last_address(&self) -> A {
        crate::inet::host::HostCalls::last_address(self)
    }

    #[inline]
    fn last(&self) -> Host<A> {
        crate::inet::host::HostCalls::last(self)
    }

    #[inline]
    fn network_length(&self) -> u8 {
        crate::inet::host::HostCalls::network_length(self)
    }

    #[inline]
    fn family(&self) -> Family {
        crate::inet::host::HostCalls::family(self)
    }

    #[inline]
    fn is_host_address(&self) -> bool {
        crate::inet::host::HostCalls::is_host_address(self)
    }

    #[inline]
    fn mask(&self) -> A {
        crate::inet::host::HostCalls::mask(self)
    }

    #[inline]
    fn contains(&self, addr: &A) -> bool {
        crate::inet::host::HostCalls::contains(self, addr)
    }

}
