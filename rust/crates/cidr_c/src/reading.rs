//! Strings into values.

use crate::codes::{NOT_ADDRESS, NOT_UTF8, OK, parse_code};
use crate::values::{CValue, put_address, put_host, put_network};
use cidr::parsers::{parse_loose_ip, parse_short_any_ip_cidr};
use cidr::{AnyIpCidr, IpAddr, IpInet};
use core::str::FromStr;

/// Reads an address: 0 and the address in `out`, or the number of the error.
pub fn pcidr_read_address(text: &[u8], out: &mut CValue) -> u32 {
    let Ok(text) = core::str::from_utf8(text) else {
        return NOT_UTF8;
    };
    match IpAddr::from_str(text) {
        Ok(address) => {
            put_address(&address, out);
            OK
        }
        Err(_) => NOT_ADDRESS,
    }
}

/// Reads an address as `pcidr_read_address` does, and also what `inet_addr` takes: up to four numbers with dots, each
/// decimal, octal or hexadecimal, of which the last fills the octets that are missing.
pub fn pcidr_read_loose_address(text: &[u8], out: &mut CValue) -> u32 {
    let Ok(text) = core::str::from_utf8(text) else {
        return NOT_UTF8;
    };
    match parse_loose_ip(text) {
        Ok(address) => {
            put_address(&address, out);
            OK
        }
        Err(_) => NOT_ADDRESS,
    }
}

/// Reads a host, an address with or without a prefix length: 0 and the host in `out`, or the number of the first error.
pub fn pcidr_read_host(text: &[u8], out: &mut CValue) -> u32 {
    let Ok(text) = core::str::from_utf8(text) else {
        return NOT_UTF8;
    };
    match IpInet::from_str(text) {
        Ok(host) => {
            put_host(&host, out);
            OK
        }
        Err(e) => parse_code(&e),
    }
}

/// Reads a network, or `any`: 0 and the network in `out`, or the number of the first error.
pub fn pcidr_read_network(text: &[u8], out: &mut CValue) -> u32 {
    let Ok(text) = core::str::from_utf8(text) else {
        return NOT_UTF8;
    };
    match AnyIpCidr::from_str(text) {
        Ok(network) => {
            put_network(&network, out);
            OK
        }
        Err(e) => parse_code(&e),
    }
}

/// Reads a network as `pcidr_read_network` does, but takes one to four octets without a slash as the network of so many
/// whole octets: 10.7 is 10.7.0.0/16.
pub fn pcidr_read_short_network(text: &[u8], out: &mut CValue) -> u32 {
    let Ok(text) = core::str::from_utf8(text) else {
        return NOT_UTF8;
    };
    match parse_short_any_ip_cidr(text) {
        Ok(network) => {
            put_network(&network, out);
            OK
        }
        Err(e) => parse_code(&e),
    }
}
