//! Networks and hosts as strings of bits.

mod any;
mod host;
mod network;

/// A string of bits: those that the addresses of a network begin with, the most significant first. Networks and hosts
/// of one family and `AnyIpCidr` implement it.
///
/// The string of a network or host of one family is as long as its prefix length. That of `AnyIpCidr` has the family
/// bit in front, which is set for IPv6, so that it has one bit more; `Any` has none. What becomes of the bits of a host
/// after its prefix stands in the contracts of its calls.
///
/// A function over it that makes values or lets them go asks for `Copy` beside it, which each of these types is: its bound
/// is `B: BitString + Copy`.
pub trait BitString: Sized {
    /// The number of bits: the prefix length, and in `AnyIpCidr` one more, so that there are 129 at most.
    ///
    /// ```
    /// # use cidr::{canon::*, errors::*, parsers::*, *};
    /// assert_eq!("192.168.0.0/16".parse::<Ipv4Cidr>()?.len(), 16);
    /// assert_eq!("192.168.0.0/16".parse::<AnyIpCidr>()?.len(), 17);
    /// # Ok::<(), Box<dyn std::error::Error>>(())
    /// ```
    fn len(&self) -> usize;

    /// How many more bits can be appended, whichever they are: as many as the prefix length is below 32 or 128.
    ///
    /// ```
    /// # use cidr::{canon::*, errors::*, parsers::*, *};
    /// assert_eq!("192.168.0.0/16".parse::<Ipv4Cidr>()?.room(), 16);
    /// # Ok::<(), Box<dyn std::error::Error>>(())
    /// ```
    ///
    /// `Any` has room for 33, the family bit and the 32 bits of IPv4; after the family bit of IPv6 there is room for
    /// 128.
    fn room(&self) -> usize;

    /// Bit `i`, counted from 0. The caller has to ensure that `i` is below the length.
    ///
    /// ```
    /// # use cidr::{canon::*, errors::*, parsers::*, *};
    /// let network = Ipv4Cidr::new(Ipv4Addr::new(192, 168, 0, 0), 16)?;
    /// assert!(!network.get(2));
    /// # Ok::<(), Box<dyn std::error::Error>>(())
    /// ```
    ///
    /// # Panics
    ///
    /// Where the condition on the caller does not hold.
    fn get(&self, i: usize) -> bool;

    /// Sets bit `i` to `b`. The caller has to ensure that `i` is below the length.
    ///
    /// The other bits stay, but for the family bit of `AnyIpCidr`: setting that leaves no more than the family.
    ///
    /// ```
    /// # use cidr::{canon::*, errors::*, parsers::*, *};
    /// let mut network = Ipv4Cidr::new(Ipv4Addr::new(192, 168, 0, 0), 16)?;
    /// network.set(2, true);
    /// assert_eq!(format!("{}", network), "224.168.0.0/16");
    /// # Ok::<(), Box<dyn std::error::Error>>(())
    /// ```
    ///
    /// # Panics
    ///
    /// Where the condition on the caller does not hold.
    fn set(&mut self, i: usize, b: bool);

    /// Inverts bit `i`. The caller has to ensure that `i` is below the length. What becomes of the others is as for
    /// `set`.
    ///
    /// ```
    /// # use cidr::{canon::*, errors::*, parsers::*, *};
    /// let mut network = Ipv4Cidr::new(Ipv4Addr::new(192, 168, 0, 0), 16)?;
    /// network.flip(15);
    /// assert_eq!(format!("{}", network), "192.169.0.0/16");
    /// # Ok::<(), Box<dyn std::error::Error>>(())
    /// ```
    ///
    /// # Panics
    ///
    /// Where the condition on the caller does not hold.
    fn flip(&mut self, i: usize);

    /// Leaves the first `k` bits. A shorter string stays as it is.
    ///
    /// ```
    /// # use cidr::{canon::*, errors::*, parsers::*, *};
    /// let mut network = "192.168.0.0/16".parse::<Ipv4Cidr>()?;
    /// network.clip(2);
    /// assert_eq!(format!("{}", network), "192.0.0.0/2");
    /// # Ok::<(), Box<dyn std::error::Error>>(())
    /// ```
    fn clip(&mut self, k: usize);

    /// Appends a bit: a network becomes its lower half (`false`) or its upper half (`true`). The caller has to ensure
    /// that there is room: that the prefix length is not full, 32 or 128. It uses up one bit of the room.
    ///
    /// ```
    /// # use cidr::{canon::*, errors::*, parsers::*, *};
    /// let mut network = "10.1.0.0/16".parse::<Ipv4Cidr>()?;
    /// network.clip(8);
    /// if network.len() < 9 {
    ///     network.append(true);
    /// }
    /// assert_eq!(format!("{}", network), "10.128.0.0/9");
    /// # Ok::<(), Box<dyn std::error::Error>>(())
    /// ```
    ///
    /// # Panics
    ///
    /// Where the condition on the caller does not hold.
    fn append(&mut self, b: bool);

    /// The value of no bits: 0.0.0.0/0, ::/0 or `Any`.
    ///
    /// ```
    /// # use cidr::{canon::*, errors::*, parsers::*, *};
    /// assert_eq!(format!("{}", Ipv6Cidr::null()), "::/0");
    /// # Ok::<(), Box<dyn std::error::Error>>(())
    /// ```
    fn null() -> Self;

    /// The length of the longest string that both begin with.
    ///
    /// ```
    /// # use cidr::{canon::*, errors::*, parsers::*, *};
    /// let network = "192.0.2.0/24".parse::<Ipv4Cidr>()?;
    /// assert_eq!(network.shared_prefix_len(&"192.0.3.0/25".parse()?), 23);
    /// # Ok::<(), Box<dyn std::error::Error>>(())
    /// ```
    fn shared_prefix_len(&self, other: &Self) -> usize;
}

/// Networks, whose order is the lexicographic order of their bits: a beginning comes first, and at the first difference
/// the unset bit. `Ipv4Cidr`, `Ipv6Cidr` and `AnyIpCidr` implement it.
///
/// This is all that a table of networks needs of its keys. Hosts are ordered by address and then by prefix length, so
/// that they do not implement it.
pub trait NetworkBits: Sized + BitString + Ord {}

/// Index `i` of a string of `len` bits, as the bits of an address are counted.
#[inline]
fn place(i: usize, len: u8) -> u8 {
    i as u8
}
