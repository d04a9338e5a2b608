//! Reading loose and short IPv4 texts.

use crate::bench::{Bench, Call};
use crate::numbers::Number;
use cidr::parsers::{inet_addr, parse_short_ipv4_cidr};
use cidr_support::alloc::AllocError;

const LOOSE_ADDRESSES: [&str; 8] = [
    "127.1",
    "10.0.0.1",
    "0x7f000001",
    "3221225985",
    "192.0.513",
    "0300.0.2.1",
    "0xc0.0.0x201",
    "198.51.100.255",
];

const SHORT_NETWORKS: [&str; 8] = [
    "10",
    "10/8",
    "192.168",
    "172.16/12",
    "192.0.2",
    "198.51.100/25",
    "203.0.113.7",
    "100.64/10",
];

/// Reads a loose IPv4 address.
struct Loose;

impl Call<&str> for Loose {
    fn number(&self, text: &&str) -> u32 {
        inet_addr(text).number()
    }
}

/// Reads an IPv4 network of one to four octets.
struct Short;

impl Call<&str> for Short {
    fn number(&self, text: &&str) -> u32 {
        parse_short_ipv4_cidr(text).ok().number()
    }
}

/// Times reading.
pub fn time_all(bench: &Bench<'_>) -> Result<(), AllocError> {
    bench.each("read loose IPv4 address", Loose, &LOOSE_ADDRESSES)?;
    bench.each("read short IPv4 network", Short, &SHORT_NETWORKS)
}
