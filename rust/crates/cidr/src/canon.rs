//! Whether two networks agree: by value, order, address set, printed string and compact bytes alike.

use crate::cidr::any::AnyIpCidr;
use crate::cidr::combined::IpCidr;
use crate::cidr::network::Network;
use crate::compact::octets::AddressOctets;
use crate::internal_traits::address_bits::AddressText;

/// A network type of which each of these tells the value: the order, the addresses of a network, its printed string and
/// its compact bytes. `Ipv4Cidr`, `Ipv6Cidr`, `IpCidr` and `AnyIpCidr` implement it.
pub trait Canonical: Sized + Ord {
    /// The laws: every value of the type is a network, and each of the four tells which one it is.
    ///
    /// It does nothing when it runs, and is called for what it promises, as by `agree` for both of its networks. The
    /// laws are those of a call, since only a call tells that the prefix length of a value is within the width.
    ///
    /// ```
    /// # use cidr::{canon::*, errors::*, parsers::*, *};
    /// "10.0.0.0/8".parse::<Ipv4Cidr>()?.each_tells_the_network();
    /// # Ok::<(), Box<dyn std::error::Error>>(())
    /// ```
    fn each_tells_the_network(&self);
}

/// Whether two networks of one type agree. It is `==`, with a contract that says more.
///
/// True says that their values, address sets, printed strings and compact bytes are the same and that `cmp` returns
/// `Equal`; false says that none of the five holds.
///
/// ```
/// # use cidr::{canon::*, errors::*, parsers::*, *};
/// let network = "10.0.0.0/8".parse::<Ipv4Cidr>()?;
/// assert!(agree(&network, &"10.0.0.0/08".parse()?));
/// assert!(!agree(&network, &"10.0.0.0/9".parse()?));
/// # Ok::<(), Box<dyn std::error::Error>>(())
/// ```
#[inline]
pub fn agree<N: Canonical>(a: &N, b: &N) -> bool {
    a.each_tells_the_network();
    b.each_tells_the_network();
    a.cmp(b).is_eq()
}

impl<A: AddressOctets + AddressText> Canonical for Network<A> {
    #[inline]
    fn each_tells_the_network(&self) {
        // the call tells the proof that the prefix length is within the width
        let _len = self.network_length();
    }
}

impl Canonical for IpCidr {
    #[inline]
    fn each_tells_the_network(&self) {
        let _len = self.network_length();
    }
}

impl Canonical for AnyIpCidr {
    #[inline]
    fn each_tells_the_network(&self) {
        let _len = match self {
            AnyIpCidr::Any => 0,
            AnyIpCidr::V4(network) => network.network_length(),
            AnyIpCidr::V6(network) => network.network_length(),
        };
    }
}
