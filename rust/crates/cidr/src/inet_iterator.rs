//! The walk over the addresses of a network or a pair, as hosts and as addresses.

use crate::internal_traits::sealed::PrivInetPair;
use crate::num::NumberOfAddresses;
use crate::traits::{Address, Inet, InetPair};
use core::fmt;
use core::iter::FusedIterator;

pub(crate) mod driving;

/// An iterator over the hosts of a network or a pair that are left, ascending. The calls `iter` of networks and pairs
/// make it.
///
/// `next` takes the lowest of them and `next_back` the highest, in constant time. Once either has returned `None`, both
/// return `None` from then on. It does not allocate. `nth`, `last` and the like take a step for each host that they
/// pass: for the number of addresses use `count`, which takes none.
///
/// ```
/// # use cidr::{canon::*, errors::*, parsers::*, *};
/// let mut hosts = "192.0.2.48/31".parse::<Ipv4Cidr>()?.iter();
/// assert_eq!(format!("{:?}", hosts.next_back()), "Some(192.0.2.49/31)");
/// assert_eq!(format!("{:?}", hosts.next()), "Some(192.0.2.48/31)");
/// assert_eq!(format!("{:?}", hosts.next()), "None");
/// # Ok::<(), Box<dyn std::error::Error>>(())
/// ```
pub struct InetIterator<A: Address> {
    state: Option<A::InetPair>,
}

impl<A: Address> InetIterator<A> {
    /// The walk of a pair.
    #[inline]
    pub(crate) fn _new(pair: A::InetPair) -> InetIterator<A> {
        let is_empty = pair._covered_addresses() == NumberOfAddresses::Count(0);
        let state = if is_empty { None } else { Some(pair) };
        InetIterator { state }
    }

    /// Both bounds on how many are left.
    #[inline]
    fn bounds(&self) -> (usize, Option<usize>) {
        let left = match &self.state {
            Some(pair) => pair._covered_addresses(),
            None => NumberOfAddresses::Count(0),
        };
        left.size_hint()
    }

    /// How many are left, or `None` where that is 2^64 or more. It takes no step.
    ///
    /// It hides `Iterator::count`, which takes a step for each and returns a `usize`: call that as `Iterator::count(walk)`.
    ///
    /// ```
    /// # use cidr::{canon::*, errors::*, parsers::*, *};
    /// assert_eq!(format!("{:?}", "10.0.0.0/8".parse::<Ipv4Cidr>()?.iter().count()), "Some(16777216)");
    /// assert_eq!(format!("{:?}", "2001:db8::/64".parse::<Ipv6Cidr>()?.iter().count()), "None");
    /// # Ok::<(), Box<dyn std::error::Error>>(())
    /// ```
    #[inline]
    pub fn count(self) -> Option<usize> {
        self.bounds().1
    }
}

impl<A: Address> InetIterator<A>
where
    A::InetPair: InetPair<Address = A>,
    A::Inet: Inet<Address = A>,
{
    /// What is left of the hosts, as addresses without the prefix length.
    ///
    /// ```
    /// # use cidr::{canon::*, errors::*, parsers::*, *};
    /// let network = "192.0.2.48/30".parse::<Ipv4Cidr>()?;
    /// assert_eq!(format!("{:?}", network.iter().addresses().next()), "Some(192.0.2.48)");
    /// # Ok::<(), Box<dyn std::error::Error>>(())
    /// ```
    #[inline]
    pub fn addresses(self) -> InetAddressIterator<A> {
        InetAddressIterator { inner: self }
    }

    /// The lowest host that is left.
    #[inline]
    fn lowest(&self) -> Option<A::Inet> {
        Some(self.state.as_ref()?.first())
    }

    /// The highest host that is left.
    #[inline]
    fn highest(&self) -> Option<A::Inet> {
        Some(self.state.as_ref()?.second())
    }

    /// Drops the lowest host that is left.
    #[inline]
    fn drop_lowest(&mut self) {
        if let Some(pair) = &mut self.state {
            let has_more = pair._inc_first();
            if !has_more {
                self.state = None;
            }
        }
    }

    /// Drops the highest host that is left.
    #[inline]
    fn drop_highest(&mut self) {
        if let Some(pair) = &mut self.state {
            let has_more = pair._dec_second();
            if !has_more {
                self.state = None;
            }
        }
    }
}

impl<A: Address> Clone for InetIterator<A>
where
    A::InetPair: InetPair<Address = A>,
{
    #[inline]
    fn clone(&self) -> InetIterator<A> {
        let state = self.state;
        InetIterator { state }
    }
}

impl<A: Address> Iterator for InetIterator<A>
where
    A::InetPair: InetPair<Address = A>,
    A::Inet: Inet<Address = A>,
{
    type Item = A::Inet;

    #[inline]
    fn next(&mut self) -> Option<A::Inet> {
        let host = self.lowest();
        self.drop_lowest();
        host
    }

    #[inline]
    fn size_hint(&self) -> (usize, Option<usize>) {
        self.bounds()
    }
}

impl<A: Address> DoubleEndedIterator for InetIterator<A>
where
    A::InetPair: InetPair<Address = A>,
    A::Inet: Inet<Address = A>,
{
    #[inline]
    fn next_back(&mut self) -> Option<A::Inet> {
        let host = self.highest();
        self.drop_highest();
        host
    }
}

impl<A: Address> FusedIterator for InetIterator<A>
where
    A::InetPair: InetPair<Address = A>,
    A::Inet: Inet<Address = A>,
{}

impl<A: Address> fmt::Debug for InetIterator<A>
where
    A::InetPair: fmt::Debug,
{
    #[inline]
    fn fmt(&self, f: &mut fmt::Formatter<'_>) -> fmt::Result {
        f.debug_struct("InetIterator")
            .field("state", &self.state)
            .finish()
    }
}

/// An iterator over the addresses of a network or a pair that are left, ascending. The call `addresses` of
/// `InetIterator` makes it.
///
/// `next` takes the lowest of them and `next_back` the highest, in constant time and without allocating. Once either
/// has returned `None`, both return `None` from then on.
///
/// ```
/// # use cidr::{canon::*, errors::*, parsers::*, *};
/// let network = "192.0.2.48/30".parse::<Ipv4Cidr>()?;
/// assert_eq!(format!("{:?}", network.iter().addresses().next_back()), "Some(192.0.2.51)");
/// # Ok::<(), Box<dyn std::error::Error>>(())
/// ```
pub struct InetAddressIterator<A: Address> {
    inner: InetIterator<A>,
}

impl<A: Address> InetAddressIterator<A> {
    /// How many are left, or `None` where that is 2^64 or more. It takes no step.
    ///
    /// It hides `Iterator::count`, which takes a step for each and returns a `usize`: call that as `Iterator::count(walk)`.
    ///
    /// ```
    /// # use cidr::{canon::*, errors::*, parsers::*, *};
    /// let network = "192.0.2.48/28".parse::<Ipv4Cidr>()?;
    /// assert_eq!(format!("{:?}", network.iter().addresses().count()), "Some(16)");
    /// # Ok::<(), Box<dyn std::error::Error>>(())
    /// ```
    #[inline]
    pub fn count(self) -> Option<usize> {
        self.inner.count()
    }
}

impl<A: Address> Clone for InetAddressIterator<A>
where
    A::InetPair: InetPair<Address = A>,
{
    #[inline]
    fn clone(&self) -> InetAddressIterator<A> {
        InetAddressIterator {
            inner: self.inner.clone(),
        }
    }
}

impl<A: Address> Iterator for InetAddressIterator<A>
where
    A::InetPair: InetPair<Address = A>,
    A::Inet: Inet<Address = A>,
{
    type Item = A;

    #[inline]
    fn next(&mut self) -> Option<A> {
        // the address is taken before the step, so that no host is kept over it
        let address = self.inner.lowest()?.address();
        self.inner.drop_lowest();
        Some(address)
    }

    #[inline]
    fn size_hint(&self) -> (usize, Option<usize>) {
        self.inner.size_hint()
    }
}

impl<A: Address> DoubleEndedIterator for InetAddressIterator<A>
where
    A::InetPair: InetPair<Address = A>,
    A::Inet: Inet<Address = A>,
{
    #[inline]
    fn next_back(&mut self) -> Option<A> {
        // the address is taken before the step, so that no host is kept over it
        let address = self.inner.highest()?.address();
        self.inner.drop_highest();
        Some(address)
    }
}

impl<A: Address> FusedIterator for InetAddressIterator<A>
where
    A::InetPair: InetPair<Address = A>,
    A::Inet: Inet<Address = A>,
{}

impl<A: Address> fmt::Debug for InetAddressIterator<A>
where
    A::InetPair: fmt::Debug,
{
    #[inline]
    fn fmt(&self, f: &mut fmt::Formatter<'_>) -> fmt::Result {
        f.debug_struct("InetAddressIterator")
            .field("inner", &self.inner)
            .finish()
    }
}
