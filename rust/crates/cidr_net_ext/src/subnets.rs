//! The networks of one prefix length inside a network, one by one.

use crate::address::AddressExt;
use crate::shifts::{fits, shifted};
use cidr::names::{Address, Cidr, Inet, InetPair};
use core::iter::FusedIterator;

/// The networks of one prefix length inside a network that are left, ascending. The call `subnets` makes it.
///
/// `next` takes the lowest of them and `next_back` the highest, in constant time, and `nth` skips any number of them in
/// constant time. Once either has returned `None`, both return `None` from then on. It does not allocate.
///
/// ```
/// # use cidr::names::*;
/// # use cidr_ext::*;
/// if let Some(mut networks) = "192.0.2.0/24".parse::<Ipv4Cidr>()?.subnets(26) {
///     assert_eq!(format!("{:?}", networks.next()), "Some(192.0.2.0/26)");
///     assert_eq!(format!("{:?}", networks.next_back()), "Some(192.0.2.192/26)");
///     assert_eq!(format!("{:?}", networks.nth(1)), "Some(192.0.2.128/26)");
///     assert_eq!(format!("{:?}", networks.next()), "None");
/// }
/// # Ok::<(), Box<dyn std::error::Error>>(())
/// ```
pub struct Subnets<C: Cidr> {
    network: C,
    len: u8,
    /// The indexes of the first and the last one that are left.
    ends: Option<(u128, u128)>,
}

impl<C: Cidr> Subnets<C> {
    /// All up to the index `last`.
    #[inline]
    pub(crate) fn _new(network: C, len: u8, last: u128) -> Subnets<C> {
        Subnets {
            network,
            len,
            ends: Some((0, last)),
        }
    }
}

impl<C: Cidr> Iterator for Subnets<C>
where
    C::Address: Address<Cidr = C> + AddressExt,
    <C::Address as Address>::Inet: Inet<Address = C::Address>,
    <C::Address as Address>::InetPair: InetPair<Address = C::Address>,
{
    type Item = C;

    #[inline]
    fn next(&mut self) -> Option<C> {
        let (first, last) = self.ends?;
        self.ends = if first < last {
            Some((first + 1, last))
        } else {
            None
        };
        subnet_at(&self.network, self.len, first)
    }

    #[inline]
    fn size_hint(&self) -> (usize, Option<usize>) {
        hint(self.ends)
    }
}

impl<C: Cidr> DoubleEndedIterator for Subnets<C>
where
    C::Address: Address<Cidr = C> + AddressExt,
    <C::Address as Address>::Inet: Inet<Address = C::Address>,
    <C::Address as Address>::InetPair: InetPair<Address = C::Address>,
{
    #[inline]
    fn next_back(&mut self) -> Option<C> {
        let (first, last) = self.ends?;
        self.ends = if first < last {
            Some((first, last - 1))
        } else {
            None
        };
        subnet_at(&self.network, self.len, last)
    }
}

impl<C: Cidr> FusedIterator for Subnets<C>
where
    C::Address: Address<Cidr = C> + AddressExt,
    <C::Address as Address>::Inet: Inet<Address = C::Address>,
    <C::Address as Address>::InetPair: InetPair<Address = C::Address>,
{}

impl<C: Cidr> Subnets<C>
where
    C::Address: Address<Cidr = C> + AddressExt,
    <C::Address as Address>::Inet: Inet<Address = C::Address>,
    <C::Address as Address>::InetPair: InetPair<Address = C::Address>,
{
    /// Skips `n` networks and takes the next one, in constant time, or returns `None` and leaves none where there are
    /// no more than `n`.
    ///
    /// ```
    /// # use cidr::names::*;
    /// # use cidr_ext::*;
    /// if let Some(mut networks) = "192.0.2.0/24".parse::<Ipv4Cidr>()?.subnets(26) {
    ///     assert_eq!(format!("{:?}", networks.nth(2)), "Some(192.0.2.128/26)");
    ///     assert_eq!(format!("{:?}", networks.nth(1)), "None");
    /// }
    /// # Ok::<(), Box<dyn std::error::Error>>(())
    /// ```
    #[inline]
    pub fn nth(&mut self, n: u128) -> Option<C> {
        self.skip_front(n);
        self.next()
    }

    /// Drops the first `n`.
    #[inline]
    fn skip_front(&mut self, n: u128) {
        self.ends = match self.ends {
            Some((first, last)) if n <= last - first => Some((first + n, last)),
            _ => None,
        };
    }
}

/// Network `index` of prefix length `len` inside a network, counted from 0 in ascending order, or `None` where there is
/// none.
#[inline]
pub(crate) fn subnet_at<C: Cidr>(network: &C, len: u8, index: u128) -> Option<C>
where
    C::Address: Address<Cidr = C>,
    <C::Address as Address>::Inet: Inet<Address = C::Address>,
{
    let more = len.checked_sub(network.network_length())?;
    let behind = network.family().len().checked_sub(len)?;
    if !fits(index, more) {
        return None;
    }
    let (host, _) = network.first().overflowing_add(shifted(index, behind));
    C::new(host.address(), len).ok()
}

/// Both bounds on how many indexes there are from the first to the last.
#[inline]
fn hint(ends: Option<(u128, u128)>) -> (usize, Option<usize>) {
    match ends {
        Some((first, last)) => match usize::try_from(last - first) {
            Ok(more) if more < usize::MAX => (more + 1, Some(more + 1)),
            _ => (usize::MAX, None),
        },
        None => (0, Some(0)),
    }
}
