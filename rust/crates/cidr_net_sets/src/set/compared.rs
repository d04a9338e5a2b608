//! Equality and order of sets, which are those of their lists.

use crate::set::NetworkSet;
use cidr::names::NetworkBits;
use core::cmp::Ordering;

impl<C: NetworkBits + Copy> PartialEq for NetworkSet<C> {
    /// Whether two sets have the same addresses. It compares their networks one by one: O(n).
    #[inline]
    fn eq(&self, other: &Self) -> bool {
        self.as_slice() == other.as_slice()
    }
}

impl<C: NetworkBits + Copy> Eq for NetworkSet<C> {}

impl<C: NetworkBits + Copy> PartialOrd for NetworkSet<C> {
    #[inline]
    fn partial_cmp(&self, other: &Self) -> Option<Ordering> {
        self.as_slice().partial_cmp(other.as_slice())
    }
}

impl<C: NetworkBits + Copy> Ord for NetworkSet<C> {
    /// By their first networks that differ; a set that has the first networks of another and no more comes before it.
    #[inline]
    fn cmp(&self, other: &Self) -> Ordering {
        self.as_slice().cmp(other.as_slice())
    }
}
