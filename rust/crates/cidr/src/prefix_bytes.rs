//! Prefix bytes: the prefix length in one octet, and the fewest octets that hold the prefix.

use crate::bits::NetworkBits;
use crate::cidr::network::Network;
use crate::errors::PrefixBytesError;
use crate::prefix_bytes::octets::PrefixOctets;
use cidr_support::arrayvec::ArrayVec;

mod octets;

/// Networks of one family that are written as routing protocols write prefixes: BGP-4 (RFC 4271, 4.3) and its
/// multiprotocol extensions (RFC 4760, 5).
///
/// The prefix length in bits comes first, in one octet, and then as many octets as hold the prefix, the first bits
/// first; 0.0.0.0/0 has no octet but the length. The family isn't written, so that networks of either family have no
/// such bytes.
pub trait PrefixBytes: Sized + NetworkBits {
    /// The prefix bytes, at most 5 in IPv4 and 17 in IPv6. The bits of the last octet after the prefix are zero.
    ///
    /// `from_prefix_bytes` parses them, with anything after them, as this network and exactly their number.
    ///
    /// ```
    /// # use cidr::{canon::*, errors::*, parsers::*, *};
    /// assert_eq!(format!("{:?}", "10.0.0.0/8".parse::<Ipv4Cidr>()?.to_prefix_bytes()), "[8, 10]");
    /// assert_eq!(format!("{:?}", "2001::/16".parse::<Ipv6Cidr>()?.to_prefix_bytes()), "[16, 32, 1]");
    /// # Ok::<(), Box<dyn std::error::Error>>(())
    /// ```
    fn to_prefix_bytes(&self) -> ArrayVec<u8, 17>;

    /// The network whose prefix bytes come first, and how many they are. The bytes after them are ignored, and so are
    /// the bits of the last octet after the prefix (RFC 4271, 4.3: their value is irrelevant).
    ///
    /// Where no network's bytes come first, it returns the first error of: no byte (`Truncated`), `LengthTooLong`, too
    /// few octets (`Truncated`).
    ///
    /// ```
    /// # use cidr::{canon::*, errors::*, parsers::*, *};
    /// assert_eq!(format!("{:?}", Ipv4Cidr::from_prefix_bytes(&[9, 10, 255, 8])), "Ok((10.128.0.0/9, 3))");
    /// assert_eq!(format!("{:?}", Ipv4Cidr::from_prefix_bytes(&[33])), "Err(prefix length is too long)");
    /// assert_eq!(format!("{:?}", Ipv6Cidr::from_prefix_bytes(&[128, 0])), "Err(prefix bytes end too early)");
    /// # Ok::<(), Box<dyn std::error::Error>>(())
    /// ```
    ///
    /// # Errors
    ///
    /// `PrefixBytesError`, whose variant is the first error in the order of the bytes.
    fn from_prefix_bytes(bytes: &[u8]) -> Result<(Self, usize), PrefixBytesError>;
}

/// The number of octets that hold a prefix of this length.
#[inline]
fn octets_for(len: u8) -> usize {
    usize::from(len).div_ceil(8)
}

impl<A: PrefixOctets> PrefixBytes for Network<A> {
    #[inline]
    fn to_prefix_bytes(&self) -> ArrayVec<u8, 17> {
        let len = self.network_length();
        let mut bytes = ArrayVec::new();
        bytes.push(len);
        self.first_address()
            .push_octets(octets_for(len), &mut bytes);
        bytes
    }

    fn from_prefix_bytes(bytes: &[u8]) -> Result<(Network<A>, usize), PrefixBytesError> {
        let [len, octets @ ..] = bytes else {
            return Err(PrefixBytesError::Truncated);
        };
        if *len > A::FAMILY.len() {
            return Err(PrefixBytesError::LengthTooLong);
        }
        let count = octets_for(*len);
        if octets.len() < count {
            return Err(PrefixBytesError::Truncated);
        }
        // the network of the first `len` bits, whatever octets follow
        let address = A::of_octets(octets);
        Ok((Network::holding(address, *len), 1 + count))
    }
}
