//! Where the memory of a set comes from, and what collections of Rust have besides. Written by hand, not proved.
//!
//! The calls of a set take [`Global`] and return [`AllocError`] where no memory is left. The traits below have no place
//! for an error, and panic.
//!
//! ```
//! use cidr::Ipv4Cidr;
//! use cidr_sets::NetworkSet;
//!
//! let halves = ["10.0.0.0/9".parse::<Ipv4Cidr>().unwrap(), "10.128.0.0/9".parse().unwrap()];
//! let mut set: NetworkSet<_> = halves.into_iter().collect();
//! set.extend(["192.0.2.0/24".parse().unwrap()]);
//! assert_eq!(format!("{set:?}"), "[10.0.0.0/8, 192.0.2.0/24]");
//! assert!(set.clone() == set && NetworkSet::<Ipv4Cidr>::default().is_empty());
//! assert!((&set).into_iter().eq(set.as_slice()) && set.clone().into_iter().eq((&set).into_iter().copied()));
//! ```

pub use cidr_support::alloc::{AllocError, Global};
pub use cidr_support::vec::{IntoIter, Vec};

use crate::NetworkSet;
use cidr::names::NetworkBits;

/// What a collection does where memory runs out and no error can be returned.
fn some_memory<T, E>(made: Result<T, E>) -> T {
    match made {
        Ok(value) => value,
        Err(_) => panic!("no memory for a set"),
    }
}

/// The empty set.
impl<C: NetworkBits + Copy> Default for NetworkSet<C> {
    fn default() -> Self {
        NetworkSet::new(Global)
    }
}

/// The set of the same networks.
impl<C: NetworkBits + Copy> Clone for NetworkSet<C> {
    fn clone(&self) -> Self {
        some_memory(NetworkSet::from_networks(Global, self.as_slice()))
    }
}

/// The set of the addresses of some networks, which are sorted once.
impl<C: NetworkBits + Copy> FromIterator<C> for NetworkSet<C> {
    fn from_iter<I: IntoIterator<Item = C>>(networks: I) -> Self {
        let mut list = Vec::new(Global);
        for network in networks {
            some_memory(list.push(network));
        }
        some_memory(NetworkSet::from_networks(Global, list.as_slice()))
    }
}

/// Adds the addresses of some networks, by one union.
impl<C: NetworkBits + Copy> Extend<C> for NetworkSet<C> {
    fn extend<I: IntoIterator<Item = C>>(&mut self, networks: I) {
        let other: NetworkSet<C> = networks.into_iter().collect();
        *self = some_memory(self.union(&other));
    }
}

/// The networks of the set, ascending.
impl<'a, C: NetworkBits + Copy> IntoIterator for &'a NetworkSet<C> {
    type Item = &'a C;
    type IntoIter = core::slice::Iter<'a, C>;

    fn into_iter(self) -> core::slice::Iter<'a, C> {
        self.iter()
    }
}

/// The networks of the set, ascending, by value.
impl<C: NetworkBits + Copy> IntoIterator for NetworkSet<C> {
    type Item = C;
    type IntoIter = IntoIter<C, Global>;

    fn into_iter(self) -> IntoIter<C, Global> {
        some_memory(Vec::from_slice(Global, self.as_slice())).into_iter()
    }
}
