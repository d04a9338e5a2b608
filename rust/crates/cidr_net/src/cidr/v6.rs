//! The walk over an IPv6 network.

use crate::cidr::network::NetworkCalls as _;
use crate::inet::host::HostCalls as _;
use crate::inet_pair::host_pair::HostPairCalls as _;
use crate::addr::v6::Ipv6Addr;
use crate::cidr::network::Ipv6Cidr;
use crate::inet::host::Ipv6Inet;
use crate::inet_iterator::InetIterator;

impl Ipv6Cidr {
    /// The hosts at all addresses of the network, ascending, with its prefix length. None is left out.
    ///
    /// ```
    /// # use cidr::{errors::*, more::{canon::*, *}, parsers::*, *};
    /// # use std::net::*;
    /// let mut hosts = "2001:db8::/126".parse::<Ipv6Cidr>()?.iter();
    /// assert_eq!(format!("{:?}", hosts.next()), "Some(2001:db8::/126)");
    /// assert_eq!(format!("{:?}", hosts.next_back()), "Some(2001:db8::3/126)");
    /// # Ok::<(), Box<dyn std::error::Error>>(())
    /// ```
    #[inline]
    pub const fn iter(&self) -> InetIterator<Ipv6Addr> {
        InetIterator::<Ipv6Addr>::_new(self.ends())
    }
}

impl IntoIterator for Ipv6Cidr {
    type Item = Ipv6Inet;

    type IntoIter = InetIterator<Ipv6Addr>;

    #[inline]
    fn into_iter(self) -> InetIterator<Ipv6Addr> {
        self.iter()
    }
}
