//! Look-ups as objects of JSON.

use cidr_support::vec::Vec;
use crate::formats::{LineFormat, Notation, object_end, written};
use crate::json::push_string;
use crate::printing::network_around;
use cidr_support::arrayvec::ArrayString;
use cidr::{Family, IpAddr, Ipv4Cidr, Ipv6Cidr};
use cidr_support::alloc::AllocError;

/// How look-ups are told.
#[derive(Clone, Copy, Debug, PartialEq)]
pub enum Telling {
    /// A line for each address: `192.0.2.1 192.0.2.0/24 ours`.
    Alone,
    /// Each line as it is, and behind it the network of its address and the value of that.
    Kept,
    /// An object of JSON for each address.
    Objects,
}

/// How look-ups are told in a format, by whether lines are kept, which goes with text alone.
#[inline]
pub fn telling_by(format: LineFormat, keeps: bool) -> Telling {
    match (format, keeps) {
        (LineFormat::Json, _) => Telling::Objects,
        (LineFormat::Plain, true) => Telling::Kept,
        (LineFormat::Plain, false) => Telling::Alone,
    }
}

/// The members of the network of the first `len` bits of an address; of the address itself where `len` is above its width.
fn members_of(address: &IpAddr, len: u8) -> ArrayString<200> {
    match address {
        IpAddr::V4(address) => {
            let network = network_around::<Ipv4Cidr>(*address, len);
            written(&network, Notation::Members)
        }
        IpAddr::V6(address) => {
            let network = network_around::<Ipv6Cidr>(*address, len);
            written(&network, Notation::Members)
        }
    }
}

/// What ends the object of an address.
#[inline]
fn end_of(address: &IpAddr) -> &'static str {
    match address {
        IpAddr::V4(_) => object_end(Family::Ipv4),
        IpAddr::V6(_) => object_end(Family::Ipv6),
    }
}

/// Appends what an object has behind its address: the value, and the network of so many bits.
#[inline]
fn push_found(text: &mut Vec<u8>, address: &IpAddr, len: u8, value: &[u8]) -> Result<(), AllocError> {
    text.extend_from_slice(b"\",\"value\":\"")?;
    push_string(text, value)?;
    text.extend_from_slice(b"\",\"network\":\"")?;
    text.extend_from_slice(members_of(address, len).as_str().as_bytes())?;
    text.extend_from_slice(end_of(address).as_bytes())?;
    text.push(b'\n')?;
    Ok(())
}

/// Appends an address as an object of JSON (RFC 8259) and a line feed, with what was found of it in a table: the length of
/// the longest network that has it, and the value of that. Of 192.0.2.1, 24 and `ours` it is
/// `{"address":"192.0.2.1","value":"ours","network":"192.0.2.0/24","first":"192.0.2.0","last":"192.0.2.255","length":24,"family":"IPv4"}`,
/// and where nothing was found `{"address":"192.0.2.1","value":null,"network":null}`. A value that is not UTF-8 makes no
/// string of JSON: whether it is, is for the caller to see. The error is that an allocation fails.
pub fn push_object(
    text: &mut Vec<u8>,
    address: &IpAddr,
    found: Option<(u8, &[u8])>,
) -> Result<(), AllocError> {
    text.extend_from_slice(b"{\"address\":\"")?;
    text.extend_from_slice(address.to_text().as_str().as_bytes())?;
    match found {
        Some((len, value)) => {
            push_found(text, address, len, value)?;
            Ok(())
        }
        None => {
            text.extend_from_slice(b"\",\"value\":null,\"network\":null}\n")?;
            Ok(())
        }
    }
}
