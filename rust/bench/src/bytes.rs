//! Writing and reading compact bytes and prefix bytes.

use crate::bench::{Bench, Call};
use crate::numbers::Number;
use crate::samples::{samples, Sample};
use crate::values::MANY;
use cidr::{IpCidr, Ipv4Cidr, Ipv6Cidr, PrefixBytes};
use cidr_support::alloc::{AllocError, Global};
use cidr_support::arrayvec::ArrayVec;
use cidr_support::vec::Vec;
use core::marker::PhantomData;

/// The bytes of a network, and zeros after them.
type Bytes = [u8; 17];

/// One number out of what was read: the network's and the count of bytes.
fn read_number(network: u32, used: usize) -> u32 {
    network.rotate_left(5) ^ (used % 256) as u32
}

struct WriteCompact;

impl Call<IpCidr> for WriteCompact {
    fn number(&self, network: &IpCidr) -> u32 {
        network.to_compact().number()
    }
}

struct ReadCompact;

impl Call<Bytes> for ReadCompact {
    fn number(&self, bytes: &Bytes) -> u32 {
        match IpCidr::from_compact(bytes) {
            Ok((network, used)) => read_number(network.number(), used),
            Err(_) => 1,
        }
    }
}

struct WritePrefix;

impl<C: PrefixBytes> Call<C> for WritePrefix {
    fn number(&self, network: &C) -> u32 {
        network.to_prefix_bytes().number()
    }
}

struct ReadPrefix<C>(PhantomData<C>);

impl<C: PrefixBytes + Number> Call<Bytes> for ReadPrefix<C> {
    fn number(&self, bytes: &Bytes) -> u32 {
        match C::from_prefix_bytes(bytes) {
            Ok((network, used)) => read_number(network.number(), used),
            Err(_) => 1,
        }
    }
}

/// The bytes, and zeros after them.
fn padded(bytes: &ArrayVec<u8, 17>) -> Bytes {
    let mut padded = [0; 17];
    for (place, byte) in padded.iter_mut().zip(bytes.as_slice()) {
        *place = *byte;
    }
    padded
}

/// Times writing of networks of one type.
fn time_writing<C: Sample, W: Call<C>>(bench: &Bench<'_>, name: &str, call: W) -> Result<(), AllocError> {
    let networks = samples::<C>(Global)?;
    bench.each(name, call, networks.as_slice())
}

/// Times reading of prefix bytes of one family.
fn time_prefixes<C: PrefixBytes + Sample + Number>(bench: &Bench<'_>) -> Result<(), AllocError> {
    let mut bytes = Vec::with_capacity(Global, MANY)?;
    for index in 0..MANY {
        bytes.push(padded(&C::sample(index).to_prefix_bytes()))?;
    }
    let call = ReadPrefix::<C>(PhantomData);
    bench.each("read prefix bytes", call, bytes.as_slice())
}

/// Times reading of compact bytes.
fn time_compact(bench: &Bench<'_>) -> Result<(), AllocError> {
    let mut bytes = Vec::with_capacity(Global, MANY)?;
    for index in 0..MANY {
        bytes.push(padded(&IpCidr::sample(index).to_compact()))?;
    }
    bench.each("read compact bytes", ReadCompact, bytes.as_slice())
}

/// Times compact bytes and prefix bytes.
pub fn time_all(bench: &Bench<'_>) -> Result<(), AllocError> {
    time_writing::<IpCidr, _>(bench, "write compact bytes", WriteCompact)?;
    time_compact(bench)?;
    time_writing::<Ipv4Cidr, _>(bench, "write prefix bytes IPv4", WritePrefix)?;
    time_writing::<Ipv6Cidr, _>(bench, "write prefix bytes IPv6", WritePrefix)?;
    time_prefixes::<Ipv4Cidr>(&bench.of("IPv4"))?;
    time_prefixes::<Ipv6Cidr>(&bench.of("IPv6"))
}
