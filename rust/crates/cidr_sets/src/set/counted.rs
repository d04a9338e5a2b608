//! How many addresses a set has, and which has which index.

use crate::set::NetworkSet;
use crate::walk::SetAddresses;
use cidr::FamilyCidr;

impl<C: FamilyCidr> NetworkSet<C> {
    /// How many addresses the set has, or `None` for all of IPv6, whose 2^128 are more than a `u128` has room for.
    ///
    /// It looks at each network of the set once: O(n).
    ///
    /// ```
    /// # use cidr::*;
    /// # use cidr_table::Probe;
    /// # use cidr_sets::{access::*, alloc::*, *};
    /// let blocks: NetworkSet<Ipv4Cidr> = ["192.0.2.0/28".parse()?, "192.0.2.128/25".parse()?].into_iter().collect();
    /// assert_eq!(format!("{:?}", blocks.as_slice()), "[192.0.2.0/28, 192.0.2.128/25]");
    /// assert_eq!(format!("{:?}", blocks.address_count()), "Some(144)");
    /// # Ok::<(), Box<dyn std::error::Error>>(())
    /// ```
    #[inline]
    pub fn address_count(&self) -> Option<u128> {
        let mut count: u128 = 0;
        for network in self.as_slice() {
            let (first, last) = network.ends();
            // no overflow, since no more than `last` addresses come before the last one
            count = (count + (last - first)).checked_add(1)?;
        }
        Some(count)
    }

    /// The address at an index, from 0 on in ascending order, or `None` where the set has no more addresses than that.
    ///
    /// It looks at each network of the set once at most: O(n).
    ///
    /// ```
    /// # use cidr::*;
    /// # use cidr_table::Probe;
    /// # use cidr_sets::{access::*, alloc::*, *};
    /// let blocks: NetworkSet<Ipv4Cidr> = ["192.0.2.0/28".parse()?, "192.0.2.128/25".parse()?].into_iter().collect();
    /// assert_eq!(format!("{:?}", blocks.nth(15)), "Some(192.0.2.15)");
    /// assert_eq!(format!("{:?}", blocks.nth(16)), "Some(192.0.2.128)");
    /// assert_eq!(format!("{:?}", blocks.nth(144)), "None");
    /// # Ok::<(), Box<dyn std::error::Error>>(())
    /// ```
    pub fn nth(&self, index: u128) -> Option<C::Address> {
        let mut left = index;
        for network in self.as_slice() {
            let (first, last) = network.ends();
            if left <= last - first {
                return Some(C::from_number(first + left));
            }
            left -= last - first + 1;
        }
        None
    }

    /// The index of an address, or `None` where the address is not in the set. It is the inverse of `nth`.
    ///
    /// It looks at each network of the set once at most: O(n).
    ///
    /// ```
    /// # use cidr::*;
    /// # use cidr_table::Probe;
    /// # use cidr_sets::{access::*, alloc::*, *};
    /// let blocks: NetworkSet<Ipv4Cidr> = ["192.0.2.0/28".parse()?, "192.0.2.128/25".parse()?].into_iter().collect();
    /// assert_eq!(format!("{:?}", blocks.position("192.0.2.128".parse()?)), "Some(16)");
    /// assert_eq!(format!("{:?}", blocks.position("192.0.2.16".parse()?)), "None");
    /// # Ok::<(), Box<dyn std::error::Error>>(())
    /// ```
    pub fn position(&self, address: C::Address) -> Option<u128> {
        let number = C::to_number(address);
        let mut before: u128 = 0;
        for network in self.as_slice() {
            let (first, last) = network.ends();
            if number < first {
                return None;
            }
            if number <= last {
                return Some(before + (number - first));
            }
            before += last - first + 1;
        }
        None
    }

    /// The addresses of the set, ascending, from both ends. It allocates nothing, and each step takes constant time.
    ///
    /// ```
    /// # use cidr::*;
    /// # use cidr_table::Probe;
    /// # use cidr_sets::{access::*, alloc::*, *};
    /// let blocks: NetworkSet<Ipv4Cidr> = ["192.0.2.0/28".parse()?, "192.0.2.128/25".parse()?].into_iter().collect();
    /// assert_eq!(format!("{:?}", blocks.addresses().next()), "Some(192.0.2.0)");
    /// # Ok::<(), Box<dyn std::error::Error>>(())
    /// ```
    #[inline]
    pub fn addresses(&self) -> SetAddresses<'_, C> {
        SetAddresses::_new(self.as_slice())
    }
}
