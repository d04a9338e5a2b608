//! Calls at both ends of a walk.

use crate::cidr::network::NetworkCalls as _;
use crate::inet::host::HostCalls as _;
use crate::inet_pair::host_pair::HostPairCalls as _;
use crate::inet_iterator::InetAddressIterator;
use crate::traits::{Address, Inet, InetPair};

/// An end of an iterator over addresses.
#[derive(Clone, Copy)]
pub enum End {
    /// The lowest address that is left, which `next` takes.
    Front,
    /// The highest address that is left, which `next_back` takes.
    Back,
}

/// Calls `next` for each `Front` of `ends` and `next_back` for each `Back`, and writes what they return to `answers`,
/// in this order. The caller has to ensure that the two slices have the same length.
///
/// ```
/// # use cidr::{errors::*, more::{canon::*, *}, parsers::*, *};
/// # use std::net::*;
/// let mut addresses = "192.0.2.48/31".parse::<Ipv4Cidr>()?.iter().addresses();
/// let mut answers = [None; 3];
/// let ends = [End::Back, End::Front, End::Front];
/// drive(&mut addresses, &ends, &mut answers);
/// assert_eq!(format!("{:?}", answers), "[Some(192.0.2.49), Some(192.0.2.48), None]");
/// # Ok::<(), Box<dyn std::error::Error>>(())
/// ```
///
/// # Panics
///
/// Unless `answers.len() == ends.len()`.
#[inline]
pub fn drive<A: Address>(iter: &mut InetAddressIterator<A>, ends: &[End], answers: &mut [Option<A>])
where
    A::InetPair: InetPair<Address = A>,
    A::Inet: Inet<Address = A>,
{
    assert!(answers.len() == ends.len());
    for (i, end) in ends.iter().enumerate() {
        answers[i] = match end {
            End::Front => iter.next(),
            End::Back => iter.next_back(),
        };
    }
}
