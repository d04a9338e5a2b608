//! Masks of networks, as addresses and in strings.

use crate::around::ipv4_host_mask;
use crate::codes::{NO_VALUE, NOT_UTF8, OK, mask_code};
use crate::finding::put_plain;
use crate::mask_texts::{ipv6_host_mask_text, ipv6_mask_text};
use crate::values::{CValue, address_of, ipv4_host, ipv6_host, is_ipv4, put_ip_network};
use cidr::{IpCidr, Ipv4Addr, Ipv4Cidr, Ipv6Addr, Ipv6Cidr};
use cidr_ext::{AddressExt, CidrExt, CidrMaskText};

/// The prefix length of a network mask, or none where a set bit of the address follows an unset one.
#[inline]
pub fn pcidr_mask_length(address: &CValue, len: &mut u8) -> u32 {
    match address_of(address) {
        Some(address) => put_plain(address.mask_length(), len),
        None => NO_VALUE,
    }
}

/// The prefix length of a host mask, or none where an unset bit of the address follows a set one.
#[inline]
pub fn pcidr_host_mask_length(address: &CValue, len: &mut u8) -> u32 {
    match address_of(address) {
        Some(address) => put_plain(address.host_mask_length(), len),
        None => NO_VALUE,
    }
}

/// Writes the network of a host with its network mask, and returns the length, at most 79; 0 where the value is no host.
pub fn pcidr_print_with_mask(host: &CValue, out: &mut [u8]) -> usize {
    if is_ipv4(host) {
        return match ipv4_host(host) {
            Some(host) => print_ipv4_mask(&host.first_address(), &host.network(), out),
            None => 0,
        };
    }
    match ipv6_host(host) {
        Some(host) => print_ipv6_mask(&host.first_address(), &host.network(), out),
        None => 0,
    }
}

/// Writes the network of a host with its host mask, and returns the length, at most 79; 0 where the value is no host.
pub fn pcidr_print_with_host_mask(host: &CValue, out: &mut [u8]) -> usize {
    if is_ipv4(host) {
        return match ipv4_host(host) {
            Some(host) => print_ipv4_host_mask(&host.first_address(), &host.network(), out),
            None => 0,
        };
    }
    match ipv6_host(host) {
        Some(host) => print_ipv6_host_mask(&host.first_address(), &host.network(), out),
        None => 0,
    }
}

/// Writes a host with the network mask of its network, and returns the length, at most 79; 0 where the value is no host.
pub fn pcidr_print_host_with_mask(host: &CValue, out: &mut [u8]) -> usize {
    if is_ipv4(host) {
        return match ipv4_host(host) {
            Some(host) => print_ipv4_mask(&host.address(), &host.network(), out),
            None => 0,
        };
    }
    match ipv6_host(host) {
        Some(host) => print_ipv6_mask(&host.address(), &host.network(), out),
        None => 0,
    }
}

/// Writes a host with the host mask of its network, and returns the length, at most 79; 0 where the value is no host.
pub fn pcidr_print_host_with_host_mask(host: &CValue, out: &mut [u8]) -> usize {
    if is_ipv4(host) {
        return match ipv4_host(host) {
            Some(host) => print_ipv4_host_mask(&host.address(), &host.network(), out),
            None => 0,
        };
    }
    match ipv6_host(host) {
        Some(host) => print_ipv6_host_mask(&host.address(), &host.network(), out),
        None => 0,
    }
}

/// Writes an address and the mask of a network, and returns the length. Each string stays where it was printed.
#[inline(always)]
fn print_ipv4_mask(address: &Ipv4Addr, network: &Ipv4Cidr, out: &mut [u8]) -> usize {
    print_both(
        address.to_text().as_str(),
        network.mask().to_text().as_str(),
        out,
    )
}

/// The same with the host mask.
#[inline(always)]
fn print_ipv4_host_mask(address: &Ipv4Addr, network: &Ipv4Cidr, out: &mut [u8]) -> usize {
    print_both(
        address.to_text().as_str(),
        ipv4_host_mask(network).to_text().as_str(),
        out,
    )
}

/// Writes an address and the mask of a network, which is printed only where it is no part of a string.
#[inline(always)]
fn print_ipv6_mask(address: &Ipv6Addr, network: &Ipv6Cidr, out: &mut [u8]) -> usize {
    match ipv6_mask_text(network.network_length()) {
        Some(mask) => print_both(address.to_text().as_str(), mask, out),
        None => print_both(
            address.to_text().as_str(),
            network.mask().to_text().as_str(),
            out,
        ),
    }
}

/// The same with the host mask.
#[inline(always)]
fn print_ipv6_host_mask(address: &Ipv6Addr, network: &Ipv6Cidr, out: &mut [u8]) -> usize {
    match ipv6_host_mask_text(network.network_length()) {
        Some(mask) => print_both(address.to_text().as_str(), mask, out),
        None => print_both(
            address.to_text().as_str(),
            network.host_mask().to_text().as_str(),
            out,
        ),
    }
}

/// Writes two strings with a slash between them, and returns the length.
#[inline(always)]
fn print_both(front: &str, back: &str, out: &mut [u8]) -> usize {
    let slash = front.len();
    let end = slash + 1 + back.len();
    if end < out.len() {
        out[..slash].copy_from_slice(front.as_bytes());
        out[slash] = b'/';
        out[slash + 1..end].copy_from_slice(back.as_bytes());
        out[end] = 0;
    }
    end
}

/// Reads a network with a network mask or a host mask in place of the prefix length: 0 and the network in `out`, or the
/// number of the first error.
pub fn pcidr_read_masked_network(text: &[u8], out: &mut CValue) -> u32 {
    let Ok(text) = core::str::from_utf8(text) else {
        return NOT_UTF8;
    };
    match IpCidr::from_mask_text(text) {
        Ok(network) => {
            put_ip_network(&network, out);
            OK
        }
        Err(e) => mask_code(&e),
    }
}
