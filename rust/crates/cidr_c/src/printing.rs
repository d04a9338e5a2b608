//! Values as strings and as compact bytes.

use crate::codes::message;
use crate::values::{CValue, address_of, host_of, value_network};

/// Writes a string with a 0 behind, if there is room for both, and returns its length.
#[inline]
pub fn print(text: &str, out: &mut [u8]) -> usize {
    print_bytes(text.as_bytes(), out)
}

/// Writes the bytes of a string with a 0 behind, if there is room for both, and returns how many they are.
#[inline]
pub fn print_bytes(bytes: &[u8], out: &mut [u8]) -> usize {
    if bytes.len() < out.len() {
        out[..bytes.len()].copy_from_slice(bytes);
        out[bytes.len()] = 0;
    }
    bytes.len()
}

/// Writes bytes, if there is room for them, and returns how many they are.
#[inline]
fn write(bytes: &[u8], out: &mut [u8]) -> usize {
    if bytes.len() <= out.len() {
        out[..bytes.len()].copy_from_slice(bytes);
    }
    bytes.len()
}

/// Writes an address as a string, and returns its length, at most 39; 0 where the value is no address.
#[inline]
pub fn pcidr_print_address(address: &CValue, out: &mut [u8]) -> usize {
    match address_of(address) {
        Some(address) => print(address.to_text().as_str(), out),
        None => 0,
    }
}

/// Writes a host as a string, without a full prefix length, and returns its length, at most 43; 0 where the value is no
/// host.
#[inline]
pub fn pcidr_print_host(host: &CValue, out: &mut [u8]) -> usize {
    match host_of(host) {
        Some(host) => print(host.to_text().as_str(), out),
        None => 0,
    }
}

/// Writes a host as a string, with its prefix length also where that is full, and returns its length, at most 43; 0
/// where the value is no host.
#[inline]
pub fn pcidr_print_host_with_length(host: &CValue, out: &mut [u8]) -> usize {
    match host_of(host) {
        Some(host) => print(host.with_length().to_text().as_str(), out),
        None => 0,
    }
}

/// Writes a network as a string, without a full prefix length, and returns its length, at most 43; 0 where the value is
/// no network.
#[inline]
pub fn pcidr_print_network(network: &CValue, out: &mut [u8]) -> usize {
    match value_network(network) {
        Some(network) => print(network.to_text().as_str(), out),
        None => 0,
    }
}

/// Writes a network as a string, with its prefix length also where that is full, and returns its length, at most 43; 0
/// where the value is no network.
#[inline]
pub fn pcidr_print_network_with_length(network: &CValue, out: &mut [u8]) -> usize {
    match value_network(network) {
        Some(network) => print(network.with_length().to_text().as_str(), out),
        None => 0,
    }
}

/// Writes the compact bytes of a network, and returns how many they are: 1, 5 or 17; 0 where the value is no network.
#[inline]
pub fn pcidr_network_to_bytes(network: &CValue, out: &mut [u8]) -> usize {
    match value_network(network) {
        Some(network) => write(network.to_compact().as_slice(), out),
        None => 0,
    }
}

/// Writes the compact bytes of a host, and returns how many they are: 5 or 17; 0 where the value is no host.
#[inline]
pub fn pcidr_host_to_bytes(host: &CValue, out: &mut [u8]) -> usize {
    match host_of(host) {
        Some(host) => write(host.to_compact().as_slice(), out),
        None => 0,
    }
}

/// Writes the message of an error, and returns its length, at most 60; 0 for a number that is none.
#[inline]
pub fn pcidr_message(code: u32, out: &mut [u8]) -> usize {
    print(message(code), out)
}

/// The version: 65536 for the major one, 256 for the minor one, and the patch.
#[inline]
pub fn pcidr_version() -> u32 {
    0x400
}
