//! The walk of an IPv6 pair.

use crate::cidr::network::NetworkCalls as _;
use crate::inet::host::HostCalls as _;
use crate::inet_pair::host_pair::HostPairCalls as _;
use crate::addr::v6::Ipv6Addr;
use crate::inet::host::Ipv6Inet;
use crate::inet_iterator::InetIterator;
use crate::inet_pair::host_pair::Ipv6InetPair;

impl Ipv6InetPair {
    /// The hosts from the first address to the second inclusive, ascending, with the prefix length of the pair. There
    /// are none where the first is above the second.
    ///
    /// ```
    /// # use cidr::{errors::*, more::{canon::*, *}, parsers::*, *};
    /// # use std::net::*;
    /// let host = "2001:db8::5/120".parse::<Ipv6Inet>()?;
    /// let pair = Ipv6InetPair::new(host.first(), host)?;
    /// assert_eq!(format!("{:?}", pair.iter().checked_count()), "Some(6)");
    /// # Ok::<(), Box<dyn std::error::Error>>(())
    /// ```
    #[inline]
    pub const fn iter(self) -> InetIterator<Ipv6Addr> {
        InetIterator::<Ipv6Addr>::_new(self)
    }
}

impl IntoIterator for Ipv6InetPair {
    type Item = Ipv6Inet;

    type IntoIter = InetIterator<Ipv6Addr>;

    #[inline]
    fn into_iter(self) -> InetIterator<Ipv6Addr> {
        self.iter()
    }
}
