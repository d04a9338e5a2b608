//! The sealed traits of all types, side by side: the family and the bits of each.

use crate::cidr::network::NetworkCalls as _;
use crate::inet::host::HostCalls as _;
use crate::inet_pair::host_pair::HostPairCalls as _;
use crate::addr::ip::IpAddr;
use crate::addr::v4::Ipv4Addr;
use crate::addr::v6::Ipv6Addr;
use crate::cidr::combined::IpCidr;
use crate::cidr::network::Network;
use crate::inet::combined::IpInet;
use crate::inet::host::Host;
use crate::inet_pair::combined::IpInetPair;
use crate::inet_pair::host_pair::HostPair;
use crate::internal_traits::address_bits::AddressBits;
use crate::internal_traits::sealed::{
    IpAddrTools, Ipv4AddrTools, Ipv6AddrTools, PrivCidr, PrivInet, PrivInetPair, PrivUnspecAddress,
};
use crate::num::NumberOfAddresses;

impl PrivUnspecAddress for Ipv4Addr {
    type _Tools = Ipv4AddrTools;

}

impl PrivUnspecAddress for Ipv6Addr {
    type _Tools = Ipv6AddrTools;

}

impl PrivUnspecAddress for IpAddr {
    type _Tools = IpAddrTools;

}

impl<A: AddressBits> PrivCidr for Network<A> {}

impl PrivCidr for IpCidr {}

impl<A: AddressBits> PrivInet for Host<A> {}

impl PrivInet for IpInet {}

impl<A: AddressBits> PrivInetPair for HostPair<A> {
    #[inline]
    fn _covered_addresses(&self) -> NumberOfAddresses {
        let (first, second) = self.addresses();
        first.count_to(second)
    }

    fn _inc_first(&mut self) -> bool {
        let (first, second) = self.addresses();
        let more = first.is_below(second);
        if more {
            // the network of length 0 has all addresses
            let next = first.step_up(0, 1).0;
            *self = HostPair::<A>::new_unchecked(next, second, self.network_length());
        }
        more
    }

    fn _dec_second(&mut self) -> bool {
        let (first, second) = self.addresses();
        let more = first.is_below(second);
        if more {
            // the network of length 0 has all addresses
            let before = second.step_down(0, 1).0;
            *self = HostPair::<A>::new_unchecked(first, before, self.network_length());
        }
        more
    }
}

impl PrivInetPair for IpInetPair {
    #[inline]
    fn _covered_addresses(&self) -> NumberOfAddresses {
        match self {
            IpInetPair::V4(pair) => pair._covered_addresses(),
            IpInetPair::V6(pair) => pair._covered_addresses(),
        }
    }

    #[inline]
    fn _inc_first(&mut self) -> bool {
        match self {
            IpInetPair::V4(pair) => pair._inc_first(),
            IpInetPair::V6(pair) => pair._inc_first(),
        }
    }

    #[inline]
    fn _dec_second(&mut self) -> bool {
        match self {
            IpInetPair::V4(pair) => pair._dec_second(),
            IpInetPair::V6(pair) => pair._dec_second(),
        }
    }
}

impl HostPair<Ipv4Addr> {
    #[inline]
    pub(crate) const fn covered_addresses(&self) -> NumberOfAddresses {
        let (first, second) = self.addresses();
        crate::const_bits::v4::count_to(first, second)
    }
}

impl HostPair<Ipv6Addr> {
    #[inline]
    pub(crate) const fn covered_addresses(&self) -> NumberOfAddresses {
        let (first, second) = self.addresses();
        crate::const_bits::v6::count_to(first, second)
    }
}

impl IpInetPair {
    #[inline]
    pub(crate) const fn covered_addresses(&self) -> NumberOfAddresses {
        match self {
            IpInetPair::V4(pair) => pair.covered_addresses(),
            IpInetPair::V6(pair) => pair.covered_addresses(),
        }
    }
}
