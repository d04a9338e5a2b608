//! IPv4 addresses and networks inside those of IPv6.

use cidr::names::{Address, Cidr, Ipv4Addr, Ipv4Cidr, Ipv6Addr, Ipv6Cidr};

/// Calls on `Ipv4Addr`.
pub trait Ipv4AddrExt: Sized + Address {
    /// The IPv4-mapped IPv6 address (RFC 4291, 2.5.5.2): ::ffff:0:0/96, and then the address.
    ///
    /// ```
    /// # use cidr::names::*;
    /// # use cidr_ext::*;
    /// assert_eq!(format!("{}", Ipv4Addr::new(192, 0, 2, 1).to_ipv6_mapped()), "::ffff:192.0.2.1");
    /// # Ok::<(), Box<dyn std::error::Error>>(())
    /// ```
    fn to_ipv6_mapped(&self) -> Ipv6Addr;
}

/// Calls on `Ipv6Addr`.
pub trait Ipv6AddrExt: Sized + Address {
    /// The IPv4 address of an IPv4-mapped address (RFC 4291, 2.5.5.2), or `None` for any other one.
    ///
    /// ```
    /// # use cidr::names::*;
    /// # use cidr_ext::*;
    /// assert_eq!(format!("{:?}", "::ffff:192.0.2.1".parse::<Ipv6Addr>()?.to_ipv4_mapped()), "Some(192.0.2.1)");
    /// assert_eq!(format!("{:?}", "::192.0.2.1".parse::<Ipv6Addr>()?.to_ipv4_mapped()), "None");
    /// # Ok::<(), Box<dyn std::error::Error>>(())
    /// ```
    fn to_ipv4_mapped(&self) -> Option<Ipv4Addr>;

    /// The IPv4 address of the site of a 6to4 address (RFC 3056, 2), the 32 bits behind 2002::/16, or `None` for an
    /// address outside of 2002::/16.
    ///
    /// ```
    /// # use cidr::names::*;
    /// # use cidr_ext::*;
    /// assert_eq!(format!("{:?}", "2002:c000:201::1".parse::<Ipv6Addr>()?.to_ipv4_6to4()), "Some(192.0.2.1)");
    /// # Ok::<(), Box<dyn std::error::Error>>(())
    /// ```
    fn to_ipv4_6to4(&self) -> Option<Ipv4Addr>;

    /// The IPv4 address that stands in an address with the well-known prefix of translation (NAT64), 64:ff9b::/96
    /// (RFC 6052, 2.1), or `None` for any other one. Prefixes of an operator's own are not known.
    ///
    /// ```
    /// # use cidr::names::*;
    /// # use cidr_ext::*;
    /// assert_eq!(format!("{:?}", "64:ff9b::192.0.2.33".parse::<Ipv6Addr>()?.to_ipv4_nat64()), "Some(192.0.2.33)");
    /// # Ok::<(), Box<dyn std::error::Error>>(())
    /// ```
    fn to_ipv4_nat64(&self) -> Option<Ipv4Addr>;
}

/// Calls on `Ipv4Cidr`.
pub trait Ipv4CidrExt: Sized + Cidr {
    /// The network of the IPv4-mapped addresses (RFC 4291, 2.5.5.2) of the network, whose prefix length is larger by
    /// 96.
    ///
    /// ```
    /// # use cidr::names::*;
    /// # use cidr_ext::*;
    /// assert_eq!(format!("{}", "192.0.2.0/24".parse::<Ipv4Cidr>()?.to_ipv6_mapped()), "::ffff:192.0.2.0/120");
    /// # Ok::<(), Box<dyn std::error::Error>>(())
    /// ```
    fn to_ipv6_mapped(&self) -> Ipv6Cidr;
}

/// Calls on `Ipv6Cidr`.
pub trait Ipv6CidrExt: Sized + Cidr {
    /// The IPv4 network of a network of IPv4-mapped addresses (RFC 4291, 2.5.5.2), whose prefix length is smaller by
    /// 96, or `None` for a network that isn't inside ::ffff:0:0/96.
    ///
    /// ```
    /// # use cidr::names::*;
    /// # use cidr_ext::*;
    /// assert_eq!(format!("{:?}", "::ffff:192.0.2.0/120".parse::<Ipv6Cidr>()?.to_ipv4_mapped()), "Some(192.0.2.0/24)");
    /// assert_eq!(format!("{:?}", "::/0".parse::<Ipv6Cidr>()?.to_ipv4_mapped()), "None");
    /// # Ok::<(), Box<dyn std::error::Error>>(())
    /// ```
    fn to_ipv4_mapped(&self) -> Option<Ipv4Cidr>;
}

impl Ipv4AddrExt for Ipv4Addr {
    #[inline]
    fn to_ipv6_mapped(&self) -> Ipv6Addr {
        Ipv6Addr::from_bits(0xffff_0000_0000 + u128::from(self.to_bits()))
    }
}

impl Ipv6AddrExt for Ipv6Addr {
    #[inline]
    fn to_ipv4_mapped(&self) -> Option<Ipv4Addr> {
        ipv4_behind(*self, 0xffff, 96)
    }

    #[inline]
    fn to_ipv4_6to4(&self) -> Option<Ipv4Addr> {
        ipv4_behind(*self, 0x2002, 16)
    }

    #[inline]
    fn to_ipv4_nat64(&self) -> Option<Ipv4Addr> {
        ipv4_behind(*self, 0x0064_ff9b_0000_0000_0000_0000, 96)
    }
}

impl Ipv4CidrExt for Ipv4Cidr {
    #[inline]
    fn to_ipv6_mapped(&self) -> Ipv6Cidr {
        let first = self.first_address().to_ipv6_mapped();
        Ipv6Cidr::new(first, 96 + self.network_length()).unwrap()
    }
}

impl Ipv6CidrExt for Ipv6Cidr {
    #[inline]
    fn to_ipv4_mapped(&self) -> Option<Ipv4Cidr> {
        let len = self.network_length().checked_sub(96)?;
        let first = self.first_address().to_ipv4_mapped()?;
        Ipv4Cidr::new(first, len).ok()
    }
}

/// The 32 bits behind the first `len` bits of an IPv6 address, where these are `front`.
#[inline]
fn ipv4_behind(address: Ipv6Addr, front: u128, len: u8) -> Option<Ipv4Addr> {
    let number = address.to_bits();
    if number >> (128 - len) == front {
        let inner = (number >> (96 - len)) % (1 << 32);
        Some(Ipv4Addr::from_bits(inner as u32))
    } else {
        None
    }
}
