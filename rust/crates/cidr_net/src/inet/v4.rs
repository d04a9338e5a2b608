//! Steps that are a `u32`, which only IPv4 hosts have.

use crate::cidr::network::NetworkCalls as _;
use crate::inet::host::HostCalls as _;
use crate::inet_pair::host_pair::HostPairCalls as _;
use crate::inet::host::Ipv4Inet;
use core::ops::{Add, Sub};

impl Ipv4Inet {
    /// What `overflowing_add` returns, for a step that is a `u32`: the host `step` addresses further, and whether it
    /// wrapped.
    ///
    /// ```
    /// # use cidr::{errors::*, more::{canon::*, *}, parsers::*, *};
    /// # use std::net::*;
    /// let host = "192.0.2.62/28".parse::<Ipv4Inet>()?;
    /// assert_eq!(format!("{:?}", host.overflowing_add_u32(2)), "(192.0.2.48/28, true)");
    /// # Ok::<(), Box<dyn std::error::Error>>(())
    /// ```
    #[inline]
    pub const fn overflowing_add_u32(self, step: u32) -> (Ipv4Inet, bool) {
        self.overflowing_add((step as u128))
    }

    /// What `overflowing_sub` returns, for a step that is a `u32`: the host `step` addresses back, and whether it
    /// wrapped.
    ///
    /// ```
    /// # use cidr::{errors::*, more::{canon::*, *}, parsers::*, *};
    /// # use std::net::*;
    /// let host = "192.0.2.62/28".parse::<Ipv4Inet>()?;
    /// assert_eq!(format!("{:?}", host.overflowing_sub_u32(2)), "(192.0.2.60/28, false)");
    /// # Ok::<(), Box<dyn std::error::Error>>(())
    /// ```
    #[inline]
    pub const fn overflowing_sub_u32(self, step: u32) -> (Ipv4Inet, bool) {
        self.overflowing_sub((step as u128))
    }
}

/// The host `step` addresses further in the network, as `overflowing_add_u32` returns it. The caller has to ensure that
/// the step does not wrap; `overflowing_add_u32` and `next` tell whether it does.
///
/// # Panics
///
/// Unless `!self.overflowing_add_u32(step).1`.
impl Add<u32> for Ipv4Inet {
    type Output = Ipv4Inet;

    #[inline]
    fn add(self, step: u32) -> Ipv4Inet {
        assert!(!self.overflowing_add_u32(step).1);
        self.overflowing_add_u32(step).0
    }
}

/// The host `step` addresses back in the network, as `overflowing_sub_u32` returns it. The caller has to ensure that the
/// step does not wrap; `overflowing_sub_u32` and `previous` tell whether it does.
///
/// # Panics
///
/// Unless `!self.overflowing_sub_u32(step).1`.
impl Sub<u32> for Ipv4Inet {
    type Output = Ipv4Inet;

    #[inline]
    fn sub(self, step: u32) -> Ipv4Inet {
        assert!(!self.overflowing_sub_u32(step).1);
        self.overflowing_sub_u32(step).0
    }
}
