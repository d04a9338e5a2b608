//! Steps of a host in its network.
//!
//! Each step is of another host than the one before, with another prefix length, so that nothing that hangs on the
//! length can be made once for a loop. The library makes its masks in each step from the length of the host.

use crate::bench::{Bench, Call2};
use crate::numbers::Number;
use crate::samples::fixed_values;
use cidr::{Ipv4Inet, Ipv6Inet};
use cidr_support::alloc::AllocError;

/// Steps up, and tells the address and whether it went round.
struct Up;

/// Steps down.
struct Down;

impl Call2<Ipv4Inet, u128> for Up {
    fn number(&self, host: &Ipv4Inet, step: &u128) -> u32 {
        let (next, wraps) = host.overflowing_add(*step);
        next.address().number() ^ u32::from(wraps)
    }
}

impl Call2<Ipv6Inet, u128> for Up {
    fn number(&self, host: &Ipv6Inet, step: &u128) -> u32 {
        let (next, wraps) = host.overflowing_add(*step);
        next.address().number() ^ u32::from(wraps)
    }
}

impl Call2<Ipv4Inet, u128> for Down {
    fn number(&self, host: &Ipv4Inet, step: &u128) -> u32 {
        let (next, wraps) = host.overflowing_sub(*step);
        next.address().number() ^ u32::from(wraps)
    }
}

impl Call2<Ipv6Inet, u128> for Down {
    fn number(&self, host: &Ipv6Inet, step: &u128) -> u32 {
        let (next, wraps) = host.overflowing_sub(*step);
        next.address().number() ^ u32::from(wraps)
    }
}

/// Times steps of hosts of one family.
fn time<I>(bench: &Bench<'_>, hosts: &[I]) -> Result<(), AllocError>
where
    Up: Call2<I, u128>,
    Down: Call2<I, u128>,
{
    let steps = fixed_values::<u128>();
    bench.pairs("step up", Up, hosts, &steps)?;
    bench.pairs("step down", Down, hosts, &steps)
}

/// Times a host's steps up and down, small and large ones.
pub fn time_all(bench: &Bench<'_>) -> Result<(), AllocError> {
    time(&bench.of("IPv4"), &fixed_values::<Ipv4Inet>())?;
    time(&bench.of("IPv6"), &fixed_values::<Ipv6Inet>())
}
