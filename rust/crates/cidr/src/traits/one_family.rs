//! The hosts of one family by the trait of hosts, once over both families.

use crate::addr::v4::Ipv4Addr;
use crate::addr::v6::Ipv6Addr;
use crate::cidr::network::Network;
use crate::errors::NetworkLengthTooLongError;
use crate::family::Family;
use crate::inet::host::Host;
use crate::internal_traits::address_bits::AddressText;
use crate::traits::{Address, Inet};

/// An address of one family, which its two traits know by the same family and the same bits.
pub trait OneFamily: Sized + AddressText + Address<Inet = Host<Self>, Cidr = Network<Self>> {}

impl OneFamily for Ipv4Addr {}

impl OneFamily for Ipv6Addr {}

impl<A: OneFamily> Inet for Host<A> {
    type Address = A;

    #[inline]
    fn new(addr: A, len: u8) -> Result<Host<A>, NetworkLengthTooLongError> {
        Host::new(addr, len)
    }

    #[inline]
    fn new_host(addr: A) -> Host<A> {
        Host::new_host(addr)
    }

    #[inline]
    fn increment(&mut self) -> bool {
        self.increment()
    }

    #[inline]
    fn decrement(&mut self) -> bool {
        self.decrement()
    }

    #[inline]
    fn next(self) -> Option<Host<A>> {
        self.next()
    }

    #[inline]
    fn previous(self) -> Option<Host<A>> {
        self.previous()
    }

    #[inline]
    fn overflowing_add(self, step: u128) -> (Host<A>, bool) {
        self.overflowing_add(step)
    }

    #[inline]
    fn overflowing_sub(self, step: u128) -> (Host<A>, bool) {
        self.overflowing_sub(step)
    }

    #[inline]
    fn network(&self) -> Network<A> {
        self.network()
    }

    #[inline]
    fn address(&self) -> A {
        self.address()
    }

    #[inline]
    fn first_address(&self) -> A {
        self.first_address()
    }

    #[inline]
    fn first(&self) -> Host<A> {
        self.first()
    }

    #[inline]
    fn last_address(&self) -> A {
        self.last_address()
    }

    #[inline]
    fn last(&self) -> Host<A> {
        self.last()
    }

    #[inline]
    fn network_length(&self) -> u8 {
        self.network_length()
    }

    #[inline]
    fn family(&self) -> Family {
        self.family()
    }

    #[inline]
    fn is_host_address(&self) -> bool {
        self.is_host_address()
    }

    #[inline]
    fn mask(&self) -> A {
        self.mask()
    }

    #[inline]
    fn contains(&self, addr: &A) -> bool {
        self.contains(addr)
    }

}
