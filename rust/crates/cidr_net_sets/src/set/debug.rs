//! How a set is printed.

use crate::set::NetworkSet;
use cidr::names::NetworkBits;
use core::fmt;

/// A set is printed as the list of its networks: `[10.0.0.0/8, 192.0.2.0/24]`.
impl<C: NetworkBits + Copy + fmt::Debug> fmt::Debug for NetworkSet<C> {
    #[inline]
    fn fmt(&self, f: &mut fmt::Formatter<'_>) -> fmt::Result {
        self.as_slice().fmt(f)
    }
}
