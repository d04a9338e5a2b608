//! Compact bytes into values.

use crate::codes::{OK, compact_code};
use crate::values::{CValue, put_host, put_network};
use cidr::{AnyIpCidr, IpInet};

/// Reads the network whose compact bytes come first, and how many they are: 0 and both, or the number of the first
/// error.
pub fn pcidr_network_from_bytes(bytes: &[u8], out: &mut CValue, used: &mut usize) -> u32 {
    match AnyIpCidr::from_compact(bytes) {
        Ok((network, count)) => {
            put_network(&network, out);
            *used = count;
            OK
        }
        Err(e) => compact_code(&e),
    }
}

/// Reads the host whose compact bytes come first, and how many they are: 0 and both, or the number of the first error.
pub fn pcidr_host_from_bytes(bytes: &[u8], out: &mut CValue, used: &mut usize) -> u32 {
    match IpInet::from_compact(bytes) {
        Ok((host, count)) => {
            put_host(&host, out);
            *used = count;
            OK
        }
        Err(e) => compact_code(&e),
    }
}
