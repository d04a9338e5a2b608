//! Many networks at once.

use cidr_support::vec::Vec;
use crate::codes::{NO_MEMORY, NO_VALUE};
use crate::values::{CValue, put_network, value_network};
use cidr::AnyIpCidr;
use cidr_support::alloc::Global;

/// The networks that values are, or the number of the error.
pub fn networks_of(alloc: Global, values: &[CValue]) -> Result<Vec<AnyIpCidr>, u32> {
    let Ok(mut networks) = Vec::with_capacity(alloc, values.len()) else {
        return Err(NO_MEMORY);
    };
    for value in values {
        let Some(network) = value_network(value) else {
            return Err(NO_VALUE);
        };
        let Ok(()) = networks.push(network) else {
            return Err(NO_MEMORY);
        };
    }
    Ok(networks)
}

/// Puts networks to the front of a room for values.
#[inline]
pub fn put(networks: &[AnyIpCidr], out: &mut [CValue]) {
    for i in 0..networks.len() {
        put_network(&networks[i], &mut out[i]);
    }
}
