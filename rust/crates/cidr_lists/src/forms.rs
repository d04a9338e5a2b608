//! What the lines of lists and tables are, and the row of a table that a line says.

use crate::columns::{
    Column, Separator, address_in, field_at, is_no_row, network_in, parts_of, split_row,
    whole_address,
};
use crate::errors::LineError;
use crate::formats::LineFormat;
use crate::lines::HostBits;
use cidr_support::arrayvec::ArrayVec;
use cidr::{Family, IpAddr, IpCidr};
use cidr_io::shown::byte_excerpt;

/// Which fields of a row are its network and its value.
#[derive(Clone, Copy, Debug, PartialEq)]
pub struct RowColumns {
    /// What parts the fields.
    pub separator: Separator,
    /// The index of the field of the network, counted from 0.
    pub network: u64,
    /// The index of the field of the value, counted from 0. A row of fewer fields has an empty value.
    pub value: u64,
}

/// How a row of a table has its network and its value.
#[derive(Clone, Copy, Debug, PartialEq)]
pub enum RowLayout {
    /// The first field is the network, and the rest of the line is the value: `10.0.0.0/8 west`, or with a comma
    /// `10.0.0.0/8,AS1,west`. A field in quotes is not read, and a row that begins with a first and a last address is none.
    Fields(Separator),
    /// Two fields are the network and the value: `DE,west,10.0.0.0/8` has a network at index 2 and a value at index 0 or 1.
    /// A field in quotes is not read as a network.
    Columns(RowColumns),
    /// As the files of CAIDA that map prefixes to autonomous systems (pfx2as) have it: an address, its prefix length and
    /// the value, with white space between them, as `192.0.2.0 24 64500`.
    Pfx2as,
    /// As `ip route` prints the routes of a family: the first word is the network, where `default` is that of all addresses,
    /// and the rest of the line is the value, as `default via 192.0.2.1 dev eth0`.
    Routes(Family),
}

/// How the rows of a table are read.
#[derive(Clone, Copy, Debug, PartialEq)]
pub struct RowForm {
    /// How they have their networks and values.
    pub layout: RowLayout,
    /// In which format their values are to be told: in JSON each has to be UTF-8.
    pub values: LineFormat,
}

/// What the lines of a list are.
#[derive(Clone, Copy, Debug, PartialEq)]
pub enum ListKind {
    /// Networks, addresses and ranges.
    Networks,
    /// Networks and hosts.
    Hosts,
    /// Networks, each with a value.
    Rows(RowForm),
}

/// The fields of a row that are its network and its value; `None` for a line that is blank or a comment.
fn fields_of(columns: RowColumns, line: &[u8]) -> Option<(&[u8], &[u8])> {
    let separator = columns.separator;
    if is_no_row(separator, line.trim_ascii()) {
        return None;
    }
    let network = Column {
        place: columns.network,
        separator,
    };
    let value = Column {
        place: columns.value,
        separator,
    };
    Some((field_at(network, line), field_at(value, line)))
}

/// The parts of a row that say its network and its value; `None` for a line that is blank or a comment.
#[inline]
fn split_by(layout: RowLayout, line: &[u8]) -> Option<(&[u8], &[u8])> {
    match layout {
        RowLayout::Columns(columns) => fields_of(columns, line),
        RowLayout::Fields(separator) => split_row(separator, line),
        RowLayout::Pfx2as | RowLayout::Routes(_) => split_row(Separator::WhiteSpace, line),
    }
}

/// The text of the network of all addresses.
#[inline]
fn default_text(family: Family) -> &'static [u8] {
    match family {
        Family::Ipv4 => b"0.0.0.0/0",
        Family::Ipv6 => b"::/0",
    }
}

/// The text of the network of a route, by its first word.
#[inline]
fn route_text(family: Family, first: &[u8]) -> &[u8] {
    if first == b"default".as_slice() {
        default_text(family)
    } else {
        first
    }
}

/// Whether a field begins with a quote.
#[inline]
fn begins_quoted(field: &[u8]) -> bool {
    match field {
        [] => false,
        [first, ..] => *first == b'"',
    }
}

/// The network that a field is.
pub(crate) fn cell_network(host_bits: HostBits, first: &[u8]) -> Result<IpCidr, LineError> {
    if first.is_empty() {
        return Err(LineError::NoField);
    }
    if begins_quoted(first) {
        return Err(LineError::Quoted(byte_excerpt(first)));
    }
    match network_in(host_bits, first) {
        Ok(network) => Ok(network),
        Err(e) => Err(e),
    }
}

/// Whether two addresses are of one family, and the first is not above the second.
#[inline]
fn is_up_to(first: &IpAddr, last: &IpAddr) -> bool {
    match (first, last) {
        (IpAddr::V4(first), IpAddr::V4(last)) => !first.cmp(last).is_gt(),
        (IpAddr::V6(first), IpAddr::V6(last)) => !first.cmp(last).is_gt(),
        (IpAddr::V4(_), IpAddr::V6(_)) | (IpAddr::V6(_), IpAddr::V4(_)) => false,
    }
}

/// The field of the rest of a row at an index, counted from 0.
#[inline]
fn place_at(separator: Separator, place: u64) -> Column {
    Column { place, separator }
}

/// Whether a row is one of a range: an address, another one that is not below it, and more.
fn is_range_row(separator: Separator, first: &[u8], rest: &[u8]) -> bool {
    let Some(start) = whole_address(first) else {
        return false;
    };
    let second = field_at(place_at(separator, 0), rest);
    let Some(end) = whole_address(second) else {
        return false;
    };
    let third = field_at(place_at(separator, 1), rest);
    if third.is_empty() {
        return false;
    }
    is_up_to(&start, &end)
}

/// The row of a network and its value.
fn fields_row<'a>(
    separator: Separator,
    host_bits: HostBits,
    first: &[u8],
    rest: &'a [u8],
) -> Result<(IpCidr, &'a [u8]), LineError> {
    match cell_network(host_bits, first) {
        Ok(network) => {
            if is_range_row(separator, first, rest) {
                return Err(LineError::RangeRow(byte_excerpt(first)));
            }
            Ok((network, rest))
        }
        Err(e) => Err(e),
    }
}

/// No prefix length and no mask has more bytes.
const LONGEST: usize = 45;

/// Appends bytes for which there is room.
#[inline]
fn append(text: &mut ArrayVec<u8, 85>, bytes: &[u8]) {
    let added = text.try_extend_from_slice(bytes);
    assert!(added.is_ok());
}

/// The text of an address with a prefix length or a mask.
#[inline]
fn with_length(address: &IpAddr, len: &[u8]) -> ArrayVec<u8, 85> {
    let mut text = ArrayVec::new();
    append(&mut text, address.to_text().as_str().as_bytes());
    append(&mut text, b"/");
    append(&mut text, len);
    text
}

/// The network of an address with a prefix length in a field of its own.
pub(crate) fn network_with(
    host_bits: HostBits,
    address: &IpAddr,
    len: &[u8],
) -> Result<IpCidr, LineError> {
    if len.is_empty() {
        return Err(LineError::NoField);
    }
    if len.len() > LONGEST {
        return Err(LineError::NoLength(byte_excerpt(len)));
    }
    match network_in(host_bits, with_length(address, len).as_slice()) {
        Ok(network) => Ok(network),
        Err(e) => Err(e),
    }
}

/// The row of an address, whose prefix length and value stand in the rest of the line.
fn prefix_row<'a>(
    host_bits: HostBits,
    first: &[u8],
    rest: &'a [u8],
) -> Result<(IpCidr, &'a [u8]), LineError> {
    match address_in(first) {
        Ok(address) => {
            let (len, value) = parts_of(rest);
            match network_with(host_bits, &address, len) {
                Ok(network) => Ok((network, value)),
                Err(e) => Err(e),
            }
        }
        Err(e) => Err(e),
    }
}

/// The row of these parts.
fn row_in<'a>(
    layout: RowLayout,
    host_bits: HostBits,
    first: &[u8],
    rest: &'a [u8],
) -> Result<(IpCidr, &'a [u8]), LineError> {
    match layout {
        RowLayout::Fields(separator) => fields_row(separator, host_bits, first, rest),
        RowLayout::Columns(_) => match cell_network(host_bits, first) {
            Ok(network) => Ok((network, rest)),
            Err(e) => Err(e),
        },
        RowLayout::Pfx2as => prefix_row(host_bits, first, rest),
        RowLayout::Routes(family) => match network_in(host_bits, route_text(family, first)) {
            Ok(network) => Ok((network, rest)),
            Err(e) => Err(e),
        },
    }
}

/// Whether a value can be told in a format: in JSON it has to be UTF-8.
#[inline]
pub fn check_value(format: LineFormat, value: &[u8]) -> Result<(), LineError> {
    match format {
        LineFormat::Plain => Ok(()),
        LineFormat::Json => match core::str::from_utf8(value) {
            Ok(_) => Ok(()),
            Err(_) => Err(LineError::NotUtf8(byte_excerpt(value))),
        },
    }
}

/// The network and the value of a row of a table; `None` for a line that is blank or a comment, which begins with `#` or
/// `;`, unless this parts fields. Only a whole line is a comment, so that a value may have any bytes. A line of more than
/// 1 MiB is for the caller to find.
///
/// The errors are, for `RowLayout::Fields` and `RowLayout::Columns`, `NoField` where the field of the network is missing or
/// empty, and `Quoted`; for `RowLayout::Fields`, behind those of the network, `RangeRow` where it is an address and an address of
/// its family that is not below it stands behind it, and more; then, for `RowLayout::Pfx2as`, `NotUtf8` or `NoAddress` of the first field, `NoField` where no length
/// stands behind it, and `NoLength` of one of more than 45 bytes; then `NotUtf8` and `NoNetwork` of the network; and then, for
/// `LineFormat::Json`, `NotUtf8` of the value. It takes time in the length of the
/// line and allocates nothing.
pub fn row_of(
    form: RowForm,
    host_bits: HostBits,
    line: &[u8],
) -> Result<Option<(IpCidr, &[u8])>, LineError> {
    let Some((first, rest)) = split_by(form.layout, line) else {
        return Ok(None);
    };
    let row = match row_in(form.layout, host_bits, first, rest) {
        Ok(row) => row,
        Err(e) => return Err(e),
    };
    match check_value(form.values, row.1) {
        Ok(()) => Ok(Some(row)),
        Err(e) => Err(e),
    }
}
