//! Addresses of sets, one by one.

use cidr::names::FamilyCidr;
use core::iter::FusedIterator;

/// The addresses of a set that are left, ascending. The call `addresses` of `NetworkSet` makes it.
///
/// `next` takes the lowest of them and `next_back` the highest, in constant time. Once either has returned `None`, both
/// return `None` from then on. It does not allocate.
///
/// ```
/// # use cidr::names::*;
/// # use cidr_table::Probe;
/// # use cidr_sets::{access::*, alloc::*, *};
/// let blocks: NetworkSet<Ipv4Cidr> = ["192.0.2.0/28".parse()?, "192.0.2.128/25".parse()?].into_iter().collect();
/// let mut addresses = blocks.addresses();
/// assert_eq!(format!("{:?}", addresses.next()), "Some(192.0.2.0)");
/// assert_eq!(format!("{:?}", addresses.next_back()), "Some(192.0.2.255)");
/// assert_eq!(format!("{:?}", addresses.next_back()), "Some(192.0.2.254)");
/// # Ok::<(), Box<dyn std::error::Error>>(())
/// ```
pub struct SetAddresses<'a, C: FamilyCidr> {
    /// The numbers of the first and the last address that are left of a network at the front.
    front: Option<(u128, u128)>,
    networks: &'a [C],
    /// The same of a network at the back.
    back: Option<(u128, u128)>,
}

impl<'a, C: FamilyCidr> SetAddresses<'a, C> {
    /// All addresses of some networks.
    #[inline]
    pub(crate) fn _new(networks: &'a [C]) -> SetAddresses<'a, C> {
        SetAddresses {
            front: None,
            networks,
            back: None,
        }
    }
}

impl<'a, C: FamilyCidr> Iterator for SetAddresses<'a, C> {
    type Item = C::Address;

    fn next(&mut self) -> Option<C::Address> {
        let (first, last) = match self.front {
            Some(ends) => ends,
            None => match self.networks.split_first() {
                Some((network, behind)) => {
                    self.networks = behind;
                    network.ends()
                }
                None => self.back.take()?,
            },
        };
        self.front = if first < last {
            Some((first + 1, last))
        } else {
            None
        };
        Some(C::from_number(first))
    }
}

impl<'a, C: FamilyCidr> DoubleEndedIterator for SetAddresses<'a, C> {
    fn next_back(&mut self) -> Option<C::Address> {
        let (first, last) = match self.back {
            Some(ends) => ends,
            None => match self.networks.split_last() {
                Some((network, before)) => {
                    self.networks = before;
                    network.ends()
                }
                None => self.front.take()?,
            },
        };
        self.back = if first < last {
            Some((first, last - 1))
        } else {
            None
        };
        Some(C::from_number(last))
    }
}

impl<'a, C: FamilyCidr> FusedIterator for SetAddresses<'a, C> {}
