//! Networks as keys.

use crate::address::Address;
use crate::halves::Ipv6Halves;
use cidr::{FamilyCidr, Ipv4Cidr, Ipv6Cidr};

/// A network of one family, whose [`Key`](crate::Key) a look-up table has: `Ipv4Cidr` and `Ipv6Cidr`.
pub trait Keyed: Sized + FamilyCidr {
    /// The numbers of its addresses.
    type Number: Address;
}

impl Keyed for Ipv4Cidr {
    type Number = u32;
}

impl Keyed for Ipv6Cidr {
    type Number = Ipv6Halves;
}
