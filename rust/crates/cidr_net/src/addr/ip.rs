//! The address of either family: that of `core::net`, parsed by the proved functions.

pub use core::net::IpAddr;

use crate::addr::error::{ip, AddrParseError};
use crate::addr::v4::read_v4;
use crate::addr::v6::read_v6;

/// The address that a string is parsed as.
#[inline]
pub(crate) fn read_ip(s: &str) -> Result<IpAddr, AddrParseError> {
    match read_v4(s) {
        Ok(address) => Ok(IpAddr::V4(address)),
        Err(_) => match read_v6(s) {
            Ok(address) => Ok(IpAddr::V6(address)),
            Err(_) => Err(ip()),
        },
    }
}
