//! The IPv6 address: that of `core::net`, parsed and printed by the proved functions.

pub use core::net::Ipv6Addr;

use crate::addr::error::{ipv6, AddrParseError};
use crate::addr::print_v6::push_hex_groups;
use crate::addr::read_v6::read_ipv6;
use crate::addr::v4::{push_v4, Ipv4Addr};
use crate::arithmetic::halves::Halves;
use cidr_support::arrayvec::ArrayString;

/// The address as a number, in halves.
pub(crate) trait InHalves {
    fn from_halves(value: Halves) -> Self;
    fn halves(self) -> Halves;
}

impl InHalves for Ipv6Addr {
    #[inline]
    fn from_halves(value: Halves) -> Ipv6Addr {
        Ipv6Addr::from_bits(value.join())
    }

    #[inline]
    fn halves(self) -> Halves {
        Halves::split(self.to_bits())
    }
}

/// The address that a string is parsed as.
pub(crate) fn read_v6(s: &str) -> Result<Ipv6Addr, AddrParseError> {
    match read_ipv6(s.as_bytes()) {
        Some(value) => Ok(Ipv6Addr::from_bits(value)),
        None => Err(ipv6()),
    }
}

/// Appends the printed string.
#[inline(always)]
pub(crate) fn push_v6<const CAP: usize>(address: &Ipv6Addr, text: &mut ArrayString<CAP>) {
    let halves = address.halves();
    if halves.upper() == 0 && halves.lower() >> 32 == 0xffff {
        text.push_str("::ffff:");
        push_v4(&Ipv4Addr::from_bits((halves.lower() & 0xffff_ffff) as u32), text);
    } else {
        push_hex_groups(text, &address.segments());
    }
}
