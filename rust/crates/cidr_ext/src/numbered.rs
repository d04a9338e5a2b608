//! Networks and addresses by their number inside a network.

use crate::address::AddressExt;
use crate::shifts::greatest;
use crate::subnets::{Subnets, subnet_at};
use cidr::{Address, Cidr, Family, Inet, InetIterator, InetPair};

/// Subnets, neighbours, masks and addresses of networks of the types `Ipv4Cidr`, `Ipv6Cidr` and `IpCidr`.
///
/// The result is of the family of the network. No call allocates, and each takes constant time, whatever the prefix
/// length; indexes are counted from 0.
pub trait CidrExt: Sized + Cidr {
    /// Network `index` of prefix length `len` inside this one, counted from 0 in ascending order, or `None` where
    /// there is none: where `len` is below the length of this network or above the width, 32 or 128, or where there
    /// are no more than `index`.
    ///
    /// ```
    /// # use cidr::*;
    /// # use cidr_ext::*;
    /// assert_eq!(format!("{:?}", "2001:db8::/48".parse::<Ipv6Cidr>()?.subnet(64, 255)), "Some(2001:db8:0:ff::/64)");
    /// # Ok::<(), Box<dyn std::error::Error>>(())
    /// ```
    fn subnet(&self, len: u8, index: u128) -> Option<Self>;

    /// The networks of prefix length `len` inside this one, ascending, or `None` where `len` is below the length of
    /// this network or above the width, 32 or 128. The network of that length itself is its only one.
    ///
    /// ```
    /// # use cidr::*;
    /// # use cidr_ext::*;
    /// let networks = "192.0.2.0/24".parse::<Ipv4Cidr>()?.subnets(26);
    /// assert_eq!(format!("{:?}", networks.and_then(|networks| networks.last())), "Some(192.0.2.192/26)");
    /// assert!("192.0.2.0/24".parse::<Ipv4Cidr>()?.subnets(23).is_none());
    /// # Ok::<(), Box<dyn std::error::Error>>(())
    /// ```
    fn subnets(&self, len: u8) -> Option<Subnets<Self>>;

    /// How many addresses the network has, or `None` for ::/0, whose 2^128 are more than a `u128` has room for.
    ///
    /// ```
    /// # use cidr::*;
    /// # use cidr_ext::*;
    /// assert_eq!(format!("{:?}", "2001:db8::/64".parse::<Ipv6Cidr>()?.address_count()), "Some(18446744073709551616)");
    /// # Ok::<(), Box<dyn std::error::Error>>(())
    /// ```
    fn address_count(&self) -> Option<u128>;

    /// The network of the same length that follows, or `None` for the last one of its length and family.
    ///
    /// ```
    /// # use cidr::*;
    /// # use cidr_ext::*;
    /// assert_eq!(format!("{:?}", "10.255.0.0/16".parse::<Ipv4Cidr>()?.next_network()), "Some(11.0.0.0/16)");
    /// # Ok::<(), Box<dyn std::error::Error>>(())
    /// ```
    fn next_network(&self) -> Option<Self>;

    /// The network of the same length that this one follows, or `None` for the first one of its length and family.
    ///
    /// ```
    /// # use cidr::*;
    /// # use cidr_ext::*;
    /// assert_eq!(format!("{:?}", "::/64".parse::<Ipv6Cidr>()?.previous_network()), "None");
    /// # Ok::<(), Box<dyn std::error::Error>>(())
    /// ```
    fn previous_network(&self) -> Option<Self>;

    /// The host mask, the inverse of the mask: as many unset bits as the prefix length says, then set ones.
    ///
    /// ```
    /// # use cidr::*;
    /// # use cidr_ext::*;
    /// assert_eq!(format!("{}", "192.0.2.48/28".parse::<Ipv4Cidr>()?.host_mask()), "0.0.0.15");
    /// # Ok::<(), Box<dyn std::error::Error>>(())
    /// ```
    fn host_mask(&self) -> Self::Address;

    /// Address `index` of the network, or `None` where the network has no more addresses than that.
    ///
    /// ```
    /// # use cidr::*;
    /// # use cidr_ext::*;
    /// assert_eq!(format!("{:?}", "192.0.2.48/28".parse::<Ipv4Cidr>()?.nth(15)), "Some(192.0.2.63)");
    /// # Ok::<(), Box<dyn std::error::Error>>(())
    /// ```
    fn nth(&self, index: u128) -> Option<Self::Address>;

    /// The index of an address in the network, or `None` where the address is not in it. It is the inverse of `nth`.
    ///
    /// ```
    /// # use cidr::*;
    /// # use cidr_ext::*;
    /// let network = "192.0.2.48/28".parse::<Ipv4Cidr>()?;
    /// assert_eq!(format!("{:?}", network.position(&"192.0.2.63".parse()?)), "Some(15)");
    /// assert_eq!(format!("{:?}", network.position(&"192.0.2.64".parse()?)), "None");
    /// # Ok::<(), Box<dyn std::error::Error>>(())
    /// ```
    fn position(&self, address: &Self::Address) -> Option<u128>;

    /// The hosts that may have an address of the network, ascending, with its prefix length.
    ///
    /// In IPv4 these are all addresses but the first and the last, the network and the broadcast address (RFC 1122,
    /// 3.2.1.3); of a /31 network they are both (RFC 3021), and of a /32 network the one. In IPv6 they are all, the
    /// subnet-router anycast address (RFC 4291, 2.6.1) among them.
    ///
    /// ```
    /// # use cidr::*;
    /// # use cidr_ext::*;
    /// assert_eq!(format!("{:?}", "192.0.2.48/28".parse::<Ipv4Cidr>()?.usable_hosts().count()), "Some(14)");
    /// assert_eq!(format!("{:?}", "192.0.2.48/31".parse::<Ipv4Cidr>()?.usable_hosts().count()), "Some(2)");
    /// # Ok::<(), Box<dyn std::error::Error>>(())
    /// ```
    fn usable_hosts(&self) -> InetIterator<Self::Address>;
}

impl<C: Cidr> CidrExt for C
where
    C::Address: Address<Cidr = C> + AddressExt,
    <C::Address as Address>::Inet: Inet<Address = C::Address>,
    <C::Address as Address>::InetPair: InetPair<Address = C::Address>,
{
    #[inline]
    fn subnet(&self, len: u8, index: u128) -> Option<C> {
        subnet_at(self, len, index)
    }

    #[inline]
    fn subnets(&self, len: u8) -> Option<Subnets<C>> {
        let more = len.checked_sub(self.network_length())?;
        if len > self.family().len() {
            return None;
        }
        Some(Subnets::_new(*self, len, greatest(more)))
    }

    #[inline]
    fn address_count(&self) -> Option<u128> {
        let behind = self.family().len().checked_sub(self.network_length())?;
        1_u128.checked_shl(u32::from(behind))
    }

    #[inline]
    fn next_network(&self) -> Option<C> {
        let len = self.network_length();
        let step = self.address_count()?;
        let (host, wraps) = among_all(self).overflowing_add(step);
        if wraps {
            return None;
        }
        C::new(host.address(), len).ok()
    }

    #[inline]
    fn previous_network(&self) -> Option<C> {
        let len = self.network_length();
        let step = self.address_count()?;
        let (host, wraps) = among_all(self).overflowing_sub(step);
        if wraps {
            return None;
        }
        C::new(host.address(), len).ok()
    }

    #[inline]
    fn host_mask(&self) -> C::Address {
        let zeros = among_all(self).first_address();
        C::new(zeros, self.network_length()).unwrap().last_address()
    }

    #[inline]
    fn nth(&self, index: u128) -> Option<C::Address> {
        let (host, wraps) = self.first().overflowing_add(index);
        if wraps { None } else { Some(host.address()) }
    }

    #[inline]
    fn position(&self, address: &C::Address) -> Option<u128> {
        if !self.contains(address) {
            return None;
        }
        Some(address.to_number() - self.first_address().to_number())
    }

    #[inline]
    fn usable_hosts(&self) -> InetIterator<C::Address> {
        let mut hosts = self.iter();
        if self.family() == Family::Ipv4 && self.network_length() < 31 {
            hosts.next();
            hosts.next_back();
        }
        hosts
    }
}

/// The host at the first address of a network, in the network of all addresses of the family.
#[inline]
fn among_all<C: Cidr>(network: &C) -> <C::Address as Address>::Inet
where
    C::Address: Address<Cidr = C>,
    <C::Address as Address>::Inet: Inet<Address = C::Address>,
{
    <C::Address as Address>::Inet::new(network.first_address(), 0).unwrap()
}
