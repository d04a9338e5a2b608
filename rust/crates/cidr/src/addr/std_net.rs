//! The addresses of `std::net`, to ours and back.

use crate::addr::ip::IpAddr;
use crate::addr::v4::Ipv4Addr;
use crate::addr::v6::Ipv6Addr;
use core::net;

/// The address with the same four octets.
impl From<net::Ipv4Addr> for Ipv4Addr {
    #[inline]
    fn from(address: net::Ipv4Addr) -> Ipv4Addr {
        Ipv4Addr::from(address.octets())
    }
}

/// The address with the same four octets.
impl From<Ipv4Addr> for net::Ipv4Addr {
    #[inline]
    fn from(address: Ipv4Addr) -> net::Ipv4Addr {
        net::Ipv4Addr::from(address.octets())
    }
}

/// The address with the same eight groups.
impl From<net::Ipv6Addr> for Ipv6Addr {
    #[inline]
    fn from(address: net::Ipv6Addr) -> Ipv6Addr {
        Ipv6Addr::from(address.segments())
    }
}

/// The address with the same eight groups.
impl From<Ipv6Addr> for net::Ipv6Addr {
    #[inline]
    fn from(address: Ipv6Addr) -> net::Ipv6Addr {
        net::Ipv6Addr::from(address.segments())
    }
}

/// The address of the same family with the same octets or groups: a mapped address stays an IPv6 address.
impl From<net::IpAddr> for IpAddr {
    #[inline]
    fn from(address: net::IpAddr) -> IpAddr {
        match address {
            net::IpAddr::V4(address) => IpAddr::V4(Ipv4Addr::from(address)),
            net::IpAddr::V6(address) => IpAddr::V6(Ipv6Addr::from(address)),
        }
    }
}

/// The address of the same family with the same octets or groups: a mapped address stays an IPv6 address.
impl From<IpAddr> for net::IpAddr {
    #[inline]
    fn from(address: IpAddr) -> net::IpAddr {
        match address {
            IpAddr::V4(address) => net::IpAddr::V4(net::Ipv4Addr::from(address)),
            IpAddr::V6(address) => net::IpAddr::V6(net::Ipv6Addr::from(address)),
        }
    }
}
