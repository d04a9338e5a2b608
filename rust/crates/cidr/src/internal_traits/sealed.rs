//! What the four traits of addresses, networks, hosts and pairs stand on: each value by its family and its bits.
//!
//! No other crate can name these traits, so that no other type implements the four.

use crate::num::NumberOfAddresses;

/// Tells which functions work on the numbers of IPv4 addresses.
pub struct Ipv4AddrTools {}

/// Tells which functions work on the numbers of IPv6 addresses.
pub struct Ipv6AddrTools {}

/// Tells which functions work on the addresses of either family.
pub struct IpAddrTools {}

/// An address.
pub trait PrivUnspecAddress: Sized {
    type _Tools;

}

/// A network.
pub trait PrivCidr: Sized {}

/// A host.
pub trait PrivInet: Sized {}

/// A pair, and its walk from the first address to the second.
pub trait PrivInetPair: Sized {
    /// How many addresses the walk has.
    fn _covered_addresses(&self) -> NumberOfAddresses;

    /// Drops the first address of a walk of two or more. Else it returns false and changes nothing.
    fn _inc_first(&mut self) -> bool;

    /// Drops the last address of a walk of two or more. Else it returns false and changes nothing.
    fn _dec_second(&mut self) -> bool;
}
