//! The networks that lists say.

use cidr_support::vec::Vec;
use crate::lines::Content;
use cidr::{IpCidr, Ipv4Cidr, Ipv6Cidr};
use cidr_sets::{Addressed, NetworkSet};
use cidr_support::alloc::{AllocError, Global};

/// The networks of lists, of each family, as they come: in any order, overlapping and repeated. They take 8 bytes each
/// in IPv4 and 24 in IPv6. After an error, which is that there is no memory, what was added isn't told.
pub struct Lists {
    /// Those of IPv4.
    pub v4: Vec<Ipv4Cidr>,
    /// Those of IPv6.
    pub v6: Vec<Ipv6Cidr>,
}

impl Lists {
    /// Lists of no networks. It allocates nothing.
    #[inline]
    pub fn new(alloc: Global) -> Lists {
        Lists {
            v4: Vec::new(alloc),
            v6: Vec::new(alloc),
        }
    }

    /// Adds a network to those of its family.
    #[inline]
    pub fn push(&mut self, network: &IpCidr) -> Result<(), AllocError> {
        match network {
            IpCidr::V4(network) => self.v4.push(*network)?,
            IpCidr::V6(network) => self.v6.push(*network)?,
        }
        Ok(())
    }

    /// Adds the networks of what a line says to those of their family: of a range the shortest list of networks, at
    /// most 62 in IPv4 and 254 in IPv6.
    #[inline]
    pub fn push_content(&mut self, alloc: Global, content: &Content) -> Result<(), AllocError> {
        match content {
            Content::Blank => Ok(()),
            Content::Network(network) => self.push(network),
            Content::Ipv4Range(first, last) => push_range(alloc, &mut self.v4, *first, *last),
            Content::Ipv6Range(first, last) => push_range(alloc, &mut self.v6, *first, *last),
        }
    }

    /// Adds the networks of other lists behind those of their family, in the time and memory of these.
    #[inline]
    pub fn extend(&mut self, other: &Lists) -> Result<(), AllocError> {
        self.v4.extend_from_slice(other.v4.as_slice())?;
        self.v6.extend_from_slice(other.v6.as_slice())?;
        Ok(())
    }
}

/// Adds the shortest list of networks that has the addresses from a first to a last one.
#[inline]
fn push_range<C: Addressed + Copy>(
    alloc: Global,
    networks: &mut Vec<C>,
    first: C::Address,
    last: C::Address,
) -> Result<(), AllocError> {
    let range = NetworkSet::from_range(alloc, first, last)?;
    networks.extend_from_slice(range.as_slice())?;
    Ok(())
}
