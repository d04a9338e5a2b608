//! The walk of an IPv4 pair.

use crate::cidr::network::NetworkCalls as _;
use crate::inet::host::HostCalls as _;
use crate::inet_pair::host_pair::HostPairCalls as _;
use crate::addr::v4::Ipv4Addr;
use crate::inet::host::Ipv4Inet;
use crate::inet_iterator::InetIterator;
use crate::inet_pair::host_pair::Ipv4InetPair;

impl Ipv4InetPair {
    /// The hosts from the first address to the second inclusive, ascending, with the prefix length of the pair. There
    /// are none where the first is above the second.
    ///
    /// ```
    /// # use cidr::{errors::*, more::{canon::*, *}, parsers::*, *};
    /// # use std::net::*;
    /// let host = "192.0.2.49/28".parse::<Ipv4Inet>()?;
    /// let pair = Ipv4InetPair::new(host, host.last())?;
    /// assert_eq!(format!("{:?}", pair.iter().next()), "Some(192.0.2.49/28)");
    /// assert_eq!(format!("{:?}", pair.iter().checked_count()), "Some(15)");
    /// # Ok::<(), Box<dyn std::error::Error>>(())
    /// ```
    #[inline]
    pub const fn iter(self) -> InetIterator<Ipv4Addr> {
        InetIterator::<Ipv4Addr>::_new(self)
    }
}

impl IntoIterator for Ipv4InetPair {
    type Item = Ipv4Inet;

    type IntoIter = InetIterator<Ipv4Addr>;

    #[inline]
    fn into_iter(self) -> InetIterator<Ipv4Addr> {
        self.iter()
    }
}
