//! Reading addresses, networks and hosts.

use crate::bench::{Bench, Call};
use crate::numbers::Number;
use crate::samples::Sample;
use crate::values::MANY;
use cidr::parsers::parse_cidr_ignore_hostbits;
use cidr::{
    AddrParseError, AnyIpCidr, IpAddr, IpCidr, Ipv4Addr, Ipv4Cidr, Ipv4Inet, Ipv6Addr, Ipv6Cidr,
    Ipv6Inet,
};
use cidr_support::alloc::{AllocError, Global};
use cidr_support::arrayvec::ArrayString;
use cidr_support::vec::Vec;
use core::fmt::Display;
use core::marker::PhantomData;
use core::str::FromStr;

/// A text that is read.
type Text = ArrayString<43>;

/// Reads a text as a value of type `T`.
struct Read<T>(PhantomData<T>);

impl<T: FromStr + Number> Call<Text> for Read<T> {
    fn number(&self, text: &Text) -> u32 {
        text.as_str().parse::<T>().ok().number()
    }
}

/// Reads an IPv4 network, and clears set bits after the prefix.
struct ClearHostBits;

impl Call<Text> for ClearHostBits {
    fn number(&self, text: &Text) -> u32 {
        let network = parse_cidr_ignore_hostbits::<Ipv4Cidr, _>(text.as_str(), address);
        network.ok().number()
    }
}

/// The address of a string.
fn address(text: &str) -> Result<Ipv4Addr, AddrParseError> {
    text.parse()
}

/// The printed string. No sample is of full prefix length, so that each prints its length.
fn text_of<W: Display>(value: &W) -> Text {
    let mut text = Text::new();
    let _ = text.try_push_str(&value.to_string());
    text
}

/// The texts of random values of type `W`.
fn texts<W: Sample + Display>(alloc: Global) -> Result<Vec<Text>, AllocError> {
    let mut texts = Vec::with_capacity(alloc, MANY)?;
    for index in 0..MANY {
        texts.push(text_of(&W::sample(index)))?;
    }
    Ok(texts)
}

/// Times reading of texts of type `W` as values of type `T`.
fn time<W, T>(bench: &Bench<'_>, name: &str) -> Result<(), AllocError>
where
    W: Sample + Display,
    T: FromStr + Number,
{
    let texts = texts::<W>(Global)?;
    bench.each(name, Read::<T>(PhantomData), texts.as_slice())
}

/// Times reading of addresses.
fn time_addresses(bench: &Bench<'_>) -> Result<(), AllocError> {
    time::<Ipv4Addr, Ipv4Addr>(bench, "read IPv4 address")?;
    time::<Ipv6Addr, Ipv6Addr>(bench, "read IPv6 address")?;
    time::<IpAddr, IpAddr>(bench, "read IpAddr")
}

/// Times reading of networks.
fn time_networks(bench: &Bench<'_>) -> Result<(), AllocError> {
    time::<Ipv4Cidr, Ipv4Cidr>(bench, "read IPv4 network")?;
    time::<Ipv6Cidr, Ipv6Cidr>(bench, "read IPv6 network")?;
    time::<IpCidr, IpCidr>(bench, "read IpCidr")?;
    time::<IpCidr, AnyIpCidr>(bench, "read AnyIpCidr")
}

/// Times reading of hosts.
fn time_hosts(bench: &Bench<'_>) -> Result<(), AllocError> {
    time::<Ipv4Inet, Ipv4Inet>(bench, "read IPv4 host")?;
    time::<Ipv6Inet, Ipv6Inet>(bench, "read IPv6 host")?;
    time_clearing(bench)
}

/// Times reading of IPv4 hosts as networks.
fn time_clearing(bench: &Bench<'_>) -> Result<(), AllocError> {
    let texts = texts::<Ipv4Inet>(Global)?;
    let name = "read IPv4 network, host bits cleared";
    bench.each(name, ClearHostBits, texts.as_slice())
}

/// Times reading of addresses, networks and hosts.
pub fn time_all(bench: &Bench<'_>) -> Result<(), AllocError> {
    time_addresses(bench)?;
    time_networks(bench)?;
    time_hosts(bench)
}
