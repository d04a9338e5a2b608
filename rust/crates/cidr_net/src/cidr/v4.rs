//! The walk over an IPv4 network.

use crate::cidr::network::NetworkCalls as _;
use crate::inet::host::HostCalls as _;
use crate::inet_pair::host_pair::HostPairCalls as _;
use crate::addr::v4::Ipv4Addr;
use crate::cidr::network::Ipv4Cidr;
use crate::inet::host::Ipv4Inet;
use crate::inet_iterator::InetIterator;

impl Ipv4Cidr {
    /// The hosts at all addresses of the network, ascending, with its prefix length. None is left out: the network
    /// address and the broadcast address are among them.
    ///
    /// ```
    /// # use cidr::{errors::*, more::{canon::*, *}, parsers::*, *};
    /// # use std::net::*;
    /// let mut hosts = "192.0.2.48/30".parse::<Ipv4Cidr>()?.iter();
    /// assert_eq!(format!("{:?}", hosts.next()), "Some(192.0.2.48/30)");
    /// assert_eq!(format!("{:?}", hosts.next_back()), "Some(192.0.2.51/30)");
    /// # Ok::<(), Box<dyn std::error::Error>>(())
    /// ```
    #[inline]
    pub const fn iter(&self) -> InetIterator<Ipv4Addr> {
        InetIterator::<Ipv4Addr>::_new(self.ends())
    }
}

impl IntoIterator for Ipv4Cidr {
    type Item = Ipv4Inet;

    type IntoIter = InetIterator<Ipv4Addr>;

    #[inline]
    fn into_iter(self) -> InetIterator<Ipv4Addr> {
        self.iter()
    }
}
