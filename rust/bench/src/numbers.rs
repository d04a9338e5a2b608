//! One number out of a result, which hangs on each of its bits.

use cidr::{AnyIpCidr, IpAddr, IpCidr, Ipv4Addr, Ipv4Cidr, Ipv4Inet, Ipv6Addr, Ipv6Cidr, Ipv6Inet};
use cidr_support::arrayvec::{ArrayString, ArrayVec};

/// A result of a call.
pub trait Number: Sized {
    /// A number that hangs on each bit of it.
    fn number(&self) -> u32;
}

/// The four parts of 32 bits in one.
pub fn folded(number: u128) -> u32 {
    let half = number ^ number >> 64;
    let word = half ^ half >> 32;
    (word & 0xffff_ffff) as u32
}

/// A network's or a host's number: its address and its prefix length.
pub fn with_length(address: u32, len: u8) -> u32 {
    address ^ u32::from(len) << 16
}

/// One number out of bytes, eight at a time and then the last eight, and where there are fewer, one by one.
pub fn bytes_number(bytes: &[u8]) -> u32 {
    let mut sum = bytes.len() as u64;
    match bytes.last_chunk::<8>() {
        Some(last) => {
            for part in bytes.chunks_exact(8) {
                let eight = part.first_chunk::<8>().unwrap_or(last);
                sum = sum.rotate_left(9) ^ u64::from_le_bytes(*eight);
            }
            sum = sum.rotate_left(9) ^ u64::from_le_bytes(*last);
        }
        None => {
            for byte in bytes {
                sum = sum.rotate_left(9) ^ u64::from(*byte);
            }
        }
    }
    folded(u128::from(sum))
}

impl<const N: usize> Number for ArrayVec<u8, N> {
    fn number(&self) -> u32 {
        bytes_number(self.as_slice())
    }
}

impl<const N: usize> Number for ArrayString<N> {
    fn number(&self) -> u32 {
        bytes_number(self.as_str().as_bytes())
    }
}

/// Another number than most values have, where there is none.
impl<T: Number> Number for Option<T> {
    fn number(&self) -> u32 {
        match self {
            Some(value) => value.number(),
            None => 1,
        }
    }
}

impl Number for Ipv4Addr {
    fn number(&self) -> u32 {
        self.to_bits()
    }
}

impl Number for Ipv6Addr {
    fn number(&self) -> u32 {
        folded(self.to_bits())
    }
}

impl Number for IpAddr {
    fn number(&self) -> u32 {
        match self {
            IpAddr::V4(address) => address.number(),
            IpAddr::V6(address) => address.number(),
        }
    }
}

impl Number for Ipv4Cidr {
    fn number(&self) -> u32 {
        with_length(self.first_address().number(), self.network_length())
    }
}

impl Number for Ipv6Cidr {
    fn number(&self) -> u32 {
        with_length(self.first_address().number(), self.network_length())
    }
}

impl Number for IpCidr {
    fn number(&self) -> u32 {
        with_length(self.first_address().number(), self.network_length())
    }
}

impl Number for AnyIpCidr {
    fn number(&self) -> u32 {
        match self {
            AnyIpCidr::Any => 2,
            AnyIpCidr::V4(network) => network.number(),
            AnyIpCidr::V6(network) => network.number(),
        }
    }
}

impl Number for Ipv4Inet {
    fn number(&self) -> u32 {
        with_length(self.address().number(), self.network_length())
    }
}

impl Number for Ipv6Inet {
    fn number(&self) -> u32 {
        with_length(self.address().number(), self.network_length())
    }
}
