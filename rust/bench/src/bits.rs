//! Networks as strings of bits.

use crate::bench::{Bench, Call2};
use crate::numbers::Number;
use crate::samples::fixed_values;
use cidr::{AnyIpCidr, BitString, Ipv4Cidr, Ipv6Cidr};
use cidr_support::alloc::AllocError;

/// The bit of one network at the length of another, where it has that bit.
struct Get;

impl<B: BitString> Call2<B, B> for Get {
    fn number(&self, one: &B, other: &B) -> u32 {
        let i = other.len();
        if i < one.len() {
            u32::from(one.get(i))
        } else {
            2
        }
    }
}

/// Inverts that bit.
struct Flip;

impl<B: BitString + Copy + Number> Call2<B, B> for Flip {
    fn number(&self, one: &B, other: &B) -> u32 {
        let mut changed = *one;
        let i = other.len();
        if i < changed.len() {
            changed.flip(i);
        }
        changed.number()
    }
}

/// Sets that bit.
struct Set;

impl<B: BitString + Copy + Number> Call2<B, B> for Set {
    fn number(&self, one: &B, other: &B) -> u32 {
        let mut changed = *one;
        let i = other.len();
        if i < changed.len() {
            changed.set(i, true);
        }
        changed.number()
    }
}

/// Leaves the bits before that one, and appends another.
struct ClipAndAppend;

impl<B: BitString + Copy + Number> Call2<B, B> for ClipAndAppend {
    fn number(&self, one: &B, other: &B) -> u32 {
        let mut changed = *one;
        let i = other.len();
        if i < changed.len() {
            changed.clip(i);
            changed.append(true);
        }
        changed.number()
    }
}

/// How many bits both begin with.
struct SharedLen;

impl<B: BitString> Call2<B, B> for SharedLen {
    fn number(&self, one: &B, other: &B) -> u32 {
        (one.shared_prefix_len(other) % 256) as u32
    }
}

/// Times bits of networks of one type.
fn time<B: BitString + Copy + Number>(bench: &Bench<'_>, networks: &[B]) -> Result<(), AllocError> {
    bench.pairs("get of a bit", Get, networks, networks)?;
    bench.pairs("flip", Flip, networks, networks)?;
    bench.pairs("set", Set, networks, networks)?;
    bench.pairs("clip and append", ClipAndAppend, networks, networks)?;
    bench.pairs("shared_prefix_len", SharedLen, networks, networks)
}

/// Times bits of networks of each type.
pub fn time_all(bench: &Bench<'_>) -> Result<(), AllocError> {
    time(&bench.of("IPv4"), &fixed_values::<Ipv4Cidr>())?;
    time(&bench.of("IPv6"), &fixed_values::<Ipv6Cidr>())?;
    time(&bench.of("AnyIpCidr"), &fixed_values::<AnyIpCidr>())
}
