//! The networks of all addresses of a family.

use cidr::names::{BitString, Cidr, Family, IpCidr, Ipv4Cidr, Ipv6Cidr};

/// A type of networks and the families that it has networks of.
pub trait WholeFamily: Sized + Cidr {
    /// The network of all addresses of the family, or `None` where no network and no address is of that family.
    fn all_of(family: Family) -> Option<Self>;
}

impl WholeFamily for Ipv4Cidr {
    #[inline]
    fn all_of(family: Family) -> Option<Ipv4Cidr> {
        match family {
            Family::Ipv4 => Some(Ipv4Cidr::null()),
            Family::Ipv6 => None,
        }
    }
}

impl WholeFamily for Ipv6Cidr {
    #[inline]
    fn all_of(family: Family) -> Option<Ipv6Cidr> {
        match family {
            Family::Ipv4 => None,
            Family::Ipv6 => Some(Ipv6Cidr::null()),
        }
    }
}

impl WholeFamily for IpCidr {
    #[inline]
    fn all_of(family: Family) -> Option<IpCidr> {
        Some(match family {
            Family::Ipv4 => IpCidr::V4(Ipv4Cidr::null()),
            Family::Ipv6 => IpCidr::V6(Ipv6Cidr::null()),
        })
    }
}
