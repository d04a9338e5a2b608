//! The IPv4 address: that of `core::net`, parsed and printed by the proved functions.

pub use core::net::Ipv4Addr;

use crate::addr::decimal::{push_decimal, push_decimal_dot};
use crate::addr::error::{ipv4, AddrParseError};
use crate::addr::read_v4::read_ipv4;
use cidr_support::arrayvec::ArrayString;

/// The address that a string is parsed as. One that is longer than any of IPv4, as most of IPv6 are, is refused at once.
#[inline]
pub(crate) fn read_v4(s: &str) -> Result<Ipv4Addr, AddrParseError> {
    if s.len() > 15 {
        return Err(ipv4());
    }
    match read_ipv4(s.as_bytes()) {
        Some(octets) => Ok(Ipv4Addr::from(octets)),
        None => Err(ipv4()),
    }
}

/// Appends the printed string.
#[inline(always)]
pub(crate) fn push_v4<const CAP: usize>(address: &Ipv4Addr, text: &mut ArrayString<CAP>) {
    let [a, b, c, d] = address.octets();
    push_decimal_dot(text, a);
    push_decimal_dot(text, b);
    push_decimal_dot(text, c);
    push_decimal(text, d);
}
