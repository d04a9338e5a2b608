//! The octets of the prefix of an address.

use crate::cidr::network::NetworkCalls as _;
use crate::inet::host::HostCalls as _;
use crate::inet_pair::host_pair::HostPairCalls as _;
use crate::addr::v4::Ipv4Addr;
use crate::addr::v6::Ipv6Addr;
use crate::compact::octets::AddressOctets;
use crate::internal_traits::single_bits::SingleBits;
use cidr_support::arrayvec::ArrayVec;

/// Appends the first `count` octets. All are gone over, so that there is no loop of a length that can't be foreseen.
#[inline(always)]
fn push_first(octets: &[u8], count: usize, bytes: &mut ArrayVec<u8, 17>) {
    for (i, octet) in octets.iter().enumerate() {
        if i < count {
            bytes.push(*octet);
        }
    }
}

/// An address by its first octets.
pub trait PrefixOctets: Sized + AddressOctets + SingleBits {
    /// Appends the first `count` octets.
    fn push_octets(self, count: usize, bytes: &mut ArrayVec<u8, 17>);

    /// The address that begins with these octets, as many as it has, and then has zeros.
    fn of_octets(octets: &[u8]) -> Self;
}

impl PrefixOctets for Ipv4Addr {
    #[inline]
    fn push_octets(self, count: usize, bytes: &mut ArrayVec<u8, 17>) {
        push_first(&self.octets(), count, bytes);
    }

    fn of_octets(octets: &[u8]) -> Ipv4Addr {
        match octets.first_chunk::<4>() {
            Some(all) => Ipv4Addr::from(*all),
            None => {
                let mut all = [0; 4];
                all[..octets.len()].copy_from_slice(octets);
                Ipv4Addr::from(all)
            }
        }
    }
}

impl PrefixOctets for Ipv6Addr {
    #[inline]
    fn push_octets(self, count: usize, bytes: &mut ArrayVec<u8, 17>) {
        push_first(&self.octets(), count, bytes);
    }

    fn of_octets(octets: &[u8]) -> Ipv6Addr {
        match octets.first_chunk::<16>() {
            Some(all) => Ipv6Addr::from(*all),
            None => {
                let mut all = [0; 16];
                all[..octets.len()].copy_from_slice(octets);
                Ipv6Addr::from(all)
            }
        }
    }
}
