//! Addresses: their bits, their strings, and what is printed of them.

pub(crate) mod decimal;
pub(crate) mod error;
pub(crate) mod hex;
pub(crate) mod ip;
pub(crate) mod print_v6;
pub(crate) mod read_v4;
pub(crate) mod read_v6;
pub(crate) mod v4;
pub(crate) mod v6;

use crate::cidr::network::NetworkCalls as _;
use crate::inet::host::HostCalls as _;
use crate::inet_pair::host_pair::HostPairCalls as _;
use cidr_support::arrayvec::ArrayString;

/// The printed string of an address, for the crates over this one.
pub trait AddressToText {
    fn to_text(&self) -> ArrayString<39>;
}

impl AddressToText for v4::Ipv4Addr {
    #[inline]
    fn to_text(&self) -> ArrayString<39> {
        let mut text = ArrayString::new();
        v4::push_v4(self, &mut text);
        text
    }
}

impl AddressToText for v6::Ipv6Addr {
    #[inline]
    fn to_text(&self) -> ArrayString<39> {
        let mut text = ArrayString::new();
        v6::push_v6(self, &mut text);
        text
    }
}
