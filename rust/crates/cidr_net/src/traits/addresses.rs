//! The addresses by the trait of addresses.
use crate::cidr::network::NetworkCalls as _;
use crate::inet::host::HostCalls as _;
use crate::inet_pair::host_pair::HostPairCalls as _;
use crate::addr::ip::IpAddr;
use crate::addr::v4::Ipv4Addr;
use crate::addr::v6::Ipv6Addr;
use crate::cidr::combined::IpCidr;
use crate::cidr::network::{Ipv4Cidr, Ipv6Cidr};
use crate::inet::combined::IpInet;
use crate::inet::host::{Ipv4Inet, Ipv6Inet};
use crate::inet_pair::combined::IpInetPair;
use crate::inet_pair::host_pair::{Ipv4InetPair, Ipv6InetPair};
use crate::traits::Address;

impl Address for Ipv4Addr {
    type Inet = Ipv4Inet;

    type Cidr = Ipv4Cidr;

    type InetPair = Ipv4InetPair;

}

impl Address for Ipv6Addr {
    type Inet = Ipv6Inet;

    type Cidr = Ipv6Cidr;

    type InetPair = Ipv6InetPair;

}

impl Address for IpAddr {
    type Inet = IpInet;

    type Cidr = IpCidr;

    type InetPair = IpInetPair;

}
