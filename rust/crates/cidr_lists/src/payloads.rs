//! Files of validated ROA payloads, as CSV.

use cidr_support::vec::Vec;
use crate::columns::{Column, Separator, field_at, is_no_row};
use crate::errors::LineError;
use crate::forms::cell_network;
use crate::lines::HostBits;
use crate::route_errors::{RouteError, RouteListError};
use crate::texts::line_len;
use cidr::{IpCidr, Ipv4Cidr, Ipv6Cidr};
use cidr_io::lines::is_too_long;
use cidr_io::shown::byte_excerpt;
use cidr_routes::Payload;
use cidr_support::alloc::{AllocError, Global};

/// Which fields of a file of payloads are the AS, the network and the greatest prefix length.
#[derive(Clone, Copy, Debug, PartialEq)]
pub enum PayloadLayout {
    /// The first three, as rpki-client, routinator (`csv`) and Fort write them: `AS64496,192.0.2.0/24,24,ripe`.
    AsFirst,
    /// The three behind the first, which is the URI that the payload comes from, as routinator writes them (`csvext`).
    BehindUri,
}

/// A validated ROA payload of either family.
#[derive(Clone, Copy, Debug)]
pub struct IpPayload {
    /// The network.
    pub network: IpCidr,
    /// The greatest prefix length in bits, from that of the network to the full one.
    pub max_length: u8,
    /// The number of the AS.
    pub origin: u32,
}

/// The payloads of each family, in the order of their lines. `cidr_routes::Payloads::new` makes them ready for routes.
pub struct PayloadLists {
    /// Those of IPv4.
    pub v4: Vec<Payload<Ipv4Cidr>>,
    /// Those of IPv6.
    pub v6: Vec<Payload<Ipv6Cidr>>,
}

/// The number below 2^32 that a string is in decimal, perhaps with a plus in front.
#[inline]
fn number_in(text: &str) -> Option<u32> {
    match text.parse::<u32>() {
        Ok(number) => Some(number),
        Err(_) => None,
    }
}

/// The same of bytes.
#[inline]
pub(crate) fn number_of(text: &[u8]) -> Option<u32> {
    match core::str::from_utf8(text) {
        Ok(digits) => number_in(digits),
        Err(_) => None,
    }
}

/// What stands behind the letters AS in front of a number, or all of it.
#[inline]
fn as_digits(text: &[u8]) -> &[u8] {
    match text {
        [b'A', b'S', digits @ ..] => digits,
        _ => text,
    }
}

/// The number of an AS that a field is: `AS64496` or `64496`.
#[inline]
fn as_of(text: &[u8]) -> Option<u32> {
    number_of(as_digits(text))
}

/// The greatest prefix length of a network that a field is.
#[inline]
fn max_length_of(network: &IpCidr, text: &[u8]) -> Option<u8> {
    let least = network.network_length();
    let most = network.family().len();
    match number_of(text) {
        Some(len) if u32::from(least) <= len && len <= u32::from(most) => Some(len as u8),
        _ => None,
    }
}

/// The place of a field, counted from 0.
#[inline]
fn cell_at(place: u64) -> Column {
    Column {
        place,
        separator: Separator::Byte(b','),
    }
}

/// The field of a line at an index, counted from 0, without white space at both ends.
#[inline]
fn cell(place: u64, line: &[u8]) -> &[u8] {
    field_at(cell_at(place), line)
}

/// The index of the field of the AS, counted from 0.
#[inline]
fn as_place(layout: PayloadLayout) -> u64 {
    match layout {
        PayloadLayout::AsFirst => 0,
        PayloadLayout::BehindUri => 1,
    }
}

/// Whether the field of a line at an index is a word.
#[inline]
fn is_cell(place: u64, line: &[u8], word: &[u8]) -> bool {
    cell(place, line) == word
}

/// The layout of a file by its first line, a header: its first field is `ASN`, or the first is `URI` and the second `ASN`.
/// `None` for any other line.
#[inline]
pub fn header_of(line: &[u8]) -> Option<PayloadLayout> {
    if is_cell(0, line, b"ASN") {
        return Some(PayloadLayout::AsFirst);
    }
    if is_cell(0, line, b"URI") && is_cell(1, line, b"ASN") {
        return Some(PayloadLayout::BehindUri);
    }
    None
}

/// The network that a field is.
#[inline]
pub(crate) fn network_of(text: &[u8]) -> Result<IpCidr, RouteError> {
    match cell_network(HostBits::Refused, text) {
        Ok(network) => Ok(network),
        Err(e) => Err(RouteError::Line(e)),
    }
}

/// The payload that three fields say.
fn cells_payload(origin: &[u8], network: &[u8], most: &[u8]) -> Result<IpPayload, RouteError> {
    let Some(number) = as_of(origin) else {
        return Err(RouteError::NoAs(byte_excerpt(origin)));
    };
    match network_of(network) {
        Ok(network) => match max_length_of(&network, most) {
            Some(max_length) => Ok(IpPayload {
                network,
                max_length,
                origin: number,
            }),
            None => Err(RouteError::NoMaxLength(byte_excerpt(most))),
        },
        Err(e) => Err(e),
    }
}

/// The payload that a line behind the header says; `None` for a line that is blank or a comment, which begins with `#` or
/// `;`. Of `AS64496,192.0.2.0/24,24,ripe` it is that the AS may announce the network and nothing longer. A line of more than
/// 1 MiB is for the caller to find.
///
/// The errors are, in this order: `NoField` where the field of the greatest length is missing or empty; `NoAs`; `NoField` of
/// an empty field of the network, `Quoted`, `NotUtf8` and `NoNetwork`, where a set bit after the prefix is an error; and
/// `NoMaxLength`. It takes time in the length of the line and allocates nothing.
pub fn payload_of(layout: PayloadLayout, line: &[u8]) -> Result<Option<IpPayload>, RouteError> {
    if is_no_row(Separator::Byte(b','), line.trim_ascii()) {
        return Ok(None);
    }
    let place = as_place(layout);
    let origin = cell(place, line);
    let network = cell(place + 1, line);
    let most = cell(place + 2, line);
    if most.is_empty() {
        return Err(RouteError::Line(LineError::NoField));
    }
    match cells_payload(origin, network, most) {
        Ok(payload) => Ok(Some(payload)),
        Err(e) => Err(e),
    }
}

/// The layout of a file, by its first line.
fn read_header(line: &[u8]) -> Result<PayloadLayout, RouteListError> {
    if is_too_long(line) {
        return Err(RouteListError::Line(1, RouteError::Line(LineError::TooLong)));
    }
    match header_of(line) {
        Some(layout) => Ok(layout),
        None => {
            let shown = byte_excerpt(cell(0, line));
            Err(RouteListError::Line(1, RouteError::NoHeader(shown)))
        }
    }
}

/// Adds the payload that a line says, if it says one.
fn add_payload_line(
    layout: PayloadLayout,
    number: u64,
    line: &[u8],
    lists: &mut PayloadLists,
) -> Result<(), RouteListError> {
    if is_too_long(line) {
        return Err(RouteListError::Line(number, RouteError::Line(LineError::TooLong)));
    }
    match payload_of(layout, line) {
        Ok(None) => Ok(()),
        Ok(Some(payload)) => {
            lists.push(&payload)?;
            Ok(())
        }
        Err(e) => Err(RouteListError::Line(number, e)),
    }
}

/// The payloads that the lines behind a header say.
fn payloads_behind(
    alloc: Global,
    layout: PayloadLayout,
    text: &[u8],
) -> Result<PayloadLists, RouteListError> {
    let mut lists = PayloadLists::new(alloc);
    let mut rest = text;
    let mut number = 2;
    loop {
        let (line, behind) = rest.split_at(line_len(rest));
        add_payload_line(layout, number, line, &mut lists)?;
        let Some((_, next)) = behind.split_first() else {
            return Ok(lists);
        };
        rest = next;
        number += 1;
    }
}

impl PayloadLists {
    /// No payloads. It allocates nothing.
    #[inline]
    pub fn new(alloc: Global) -> PayloadLists {
        PayloadLists {
            v4: Vec::new(alloc),
            v6: Vec::new(alloc),
        }
    }

    /// Adds a payload behind those of its family. After an error, which is that there is no memory, what was added isn't
    /// told.
    pub fn push(&mut self, payload: &IpPayload) -> Result<(), AllocError> {
        let max_length = payload.max_length;
        let origin = payload.origin;
        match payload.network {
            IpCidr::V4(network) => self.v4.push(Payload {
                network,
                max_length,
                origin,
            })?,
            IpCidr::V6(network) => self.v6.push(Payload {
                network,
                max_length,
                origin,
            })?,
        }
        Ok(())
    }

    /// The payloads that a file says: a header, by [`header_of`], and then a payload a line, by [`payload_of`]. The error is
    /// that of the first line in error, with its number from 1 on, where one of more than 1 MiB is `TooLong` and a first one
    /// that is no header `NoHeader`; `NoMemory` may come before it. It takes time in the length of the text.
    #[inline]
    pub fn of_text(alloc: Global, text: &[u8]) -> Result<PayloadLists, RouteListError> {
        let (header, behind) = text.split_at(line_len(text));
        let layout = read_header(header)?;
        match behind.split_first() {
            Some((_, rest)) => payloads_behind(alloc, layout, rest),
            None => Ok(PayloadLists::new(alloc)),
        }
    }
}
