//! The names of addresses and networks in reverse DNS.

use crate::address::AddressExt;
use crate::families::WholeFamily;
use crate::numbered::CidrExt;
use crate::reverse::name::name_of;
use crate::reverse::reading::read_name;
use crate::reverse::zones::{ReverseZones, zone_length};
use cidr_support::arrayvec::ArrayString;
use cidr::names::{Address, Cidr};

mod name;
mod reading;
pub mod zones;

/// Names of networks in reverse DNS, for `Ipv4Cidr`, `Ipv6Cidr` and `IpCidr`.
pub trait CidrReverseName: Sized + Cidr {
    /// The domain name of the network in reverse DNS, or `None` where the prefix length doesn't end at a label: it has
    /// to be a multiple of 8 in IPv4 (RFC 1035, 3.5) and of 4 in IPv6 (RFC 3596, 2.5); `reverse_zones` has names for
    /// the others. 0.0.0.0/0 is `in-addr.arpa` itself, and ::/0 `ip6.arpa`. Those of RFC 2317, for IPv4 networks
    /// smaller than /24, are left out.
    ///
    /// The name is in lower case and has no final dot. It has at most 72 bytes, and nothing is allocated.
    ///
    /// ```
    /// # use cidr::names::*;
    /// # use cidr_ext::*;
    /// assert_eq!(format!("{:?}", "192.0.2.0/24".parse::<Ipv4Cidr>()?.reverse_name()), "Some(\"2.0.192.in-addr.arpa\")");
    /// assert_eq!(format!("{:?}", "2001:db8::/32".parse::<Ipv6Cidr>()?.reverse_name()), "Some(\"8.b.d.0.1.0.0.2.ip6.arpa\")");
    /// assert_eq!(format!("{:?}", "192.0.2.0/25".parse::<Ipv4Cidr>()?.reverse_name()), "None");
    /// # Ok::<(), Box<dyn std::error::Error>>(())
    /// ```
    fn reverse_name(&self) -> Option<ArrayString<72>>;

    /// The names in reverse DNS of the zones that the network is delegated in, ascending: those of the networks inside
    /// it whose prefix length is the next one that ends at a label. They are at most 128 in IPv4 and 8 in IPv6, and of a
    /// network that has a name itself only this one.
    ///
    /// ```
    /// # use cidr::names::*;
    /// # use cidr_ext::*;
    /// let mut zones = "192.0.2.0/23".parse::<Ipv4Cidr>()?.reverse_zones();
    /// assert_eq!(format!("{:?}", zones.next()), "Some(\"2.0.192.in-addr.arpa\")");
    /// assert_eq!(format!("{:?}", zones.next()), "Some(\"3.0.192.in-addr.arpa\")");
    /// assert_eq!(format!("{:?}", zones.next()), "None");
    /// # Ok::<(), Box<dyn std::error::Error>>(())
    /// ```
    fn reverse_zones(&self) -> ReverseZones<Self>;

    /// The network that has this name in reverse DNS, or `None` where no network of the type has it. It is the inverse
    /// of `reverse_name`.
    ///
    /// Letters may be in upper or lower case (RFC 4343, 3), and a dot may stand at the end (RFC 1034, 3.1). A label has
    /// no leading zeros, since it is a name and not a number.
    ///
    /// ```
    /// # use cidr::names::*;
    /// # use cidr_ext::*;
    /// assert_eq!(format!("{:?}", Ipv4Cidr::from_reverse_name("2.0.192.in-addr.arpa")), "Some(192.0.2.0/24)");
    /// assert_eq!(format!("{:?}", Ipv6Cidr::from_reverse_name("8.B.D.0.1.0.0.2.IP6.ARPA.")), "Some(2001:db8::/32)");
    /// assert_eq!(format!("{:?}", Ipv4Cidr::from_reverse_name("02.0.192.in-addr.arpa")), "None");
    /// # Ok::<(), Box<dyn std::error::Error>>(())
    /// ```
    fn from_reverse_name(name: &str) -> Option<Self>;
}

/// Names of addresses in reverse DNS, for `Ipv4Addr`, `Ipv6Addr` and `IpAddr`.
pub trait AddressReverseName: Sized + Address {
    /// The domain name of the address in reverse DNS, where its PTR record is: in in-addr.arpa (RFC 1035, 3.5) or in
    /// ip6.arpa (RFC 3596, 2.5).
    ///
    /// The name is in lower case and has no final dot. It has at most 72 bytes, and nothing is allocated.
    ///
    /// ```
    /// # use cidr::names::*;
    /// # use cidr_ext::*;
    /// assert_eq!(format!("{}", Ipv4Addr::new(192, 0, 2, 1).reverse_name()), "1.2.0.192.in-addr.arpa");
    /// # Ok::<(), Box<dyn std::error::Error>>(())
    /// ```
    fn reverse_name(&self) -> ArrayString<72>;

    /// The address that has this name in reverse DNS, or `None` where no address of the type has it, as the name of a
    /// larger network. It is the inverse of `reverse_name`, and reads names as that of networks does.
    ///
    /// ```
    /// # use cidr::names::*;
    /// # use cidr_ext::*;
    /// assert_eq!(format!("{:?}", Ipv4Addr::from_reverse_name("1.2.0.192.in-addr.arpa")), "Some(192.0.2.1)");
    /// assert_eq!(format!("{:?}", Ipv4Addr::from_reverse_name("2.0.192.in-addr.arpa")), "None");
    /// # Ok::<(), Box<dyn std::error::Error>>(())
    /// ```
    fn from_reverse_name(name: &str) -> Option<Self>;
}

impl<A: Address> AddressReverseName for A
where
    <A as Address>::Cidr: Cidr<Address = A> + CidrReverseName + WholeFamily + CidrExt,
{
    #[inline]
    fn reverse_name(&self) -> ArrayString<72> {
        <A as Address>::Cidr::new_host(*self)
            .reverse_name()
            .unwrap()
    }

    #[inline]
    fn from_reverse_name(name: &str) -> Option<A> {
        let (family, number, len) = read_name(name)?;
        if len != family.len() {
            return None;
        }
        <A as Address>::Cidr::all_of(family)?.nth(number)
    }
}

impl<C: WholeFamily + CidrExt> CidrReverseName for C
where
    C::Address: AddressExt,
{
    #[inline]
    fn reverse_name(&self) -> Option<ArrayString<72>> {
        name_of(self)
    }

    #[inline]
    fn reverse_zones(&self) -> ReverseZones<C> {
        let len = zone_length(self.family(), self.network_length());
        ReverseZones::_new(self.subnets(len).unwrap())
    }

    #[inline]
    fn from_reverse_name(name: &str) -> Option<C> {
        let (family, number, len) = read_name(name)?;
        C::all_of(family)?.subnet(len, number)
    }
}
