//! What a field of a line says, and which address of it is looked up.

use crate::columns::{Column, Separator, address_in, address_of, field_at, is_no_row, network_in};
use crate::errors::LineError;
use crate::lines::{HostBits, whole_network};
use crate::words::first_address;
use cidr::{IpAddr, IpCidr};

/// No network that is printed has more bytes.
const LONGEST: usize = 43;

/// The network that a short line is in whole, where its first field is read.
#[inline]
fn whole_network_at(column: Column, line: &[u8]) -> Option<IpCidr> {
    if column.place > 0 || line.is_empty() || line.len() > LONGEST {
        return None;
    }
    match column.separator {
        Separator::WhiteSpace => whole_network(HostBits::Refused, line),
        Separator::Byte(_) => None,
    }
}

/// The network that the field of a column says; `None` for a line that is blank or a comment, which begins with `#` or
/// `;`, unless this parts fields. Elsewhere these are bytes like any other, and the other fields play no part.
///
/// The errors are `NoField` where the line has fewer fields or this one is empty; `NotUtf8` of the field; and then
/// `NoNetwork` with the first error of parsing it: a set bit after the prefix is one.
pub fn network_at(column: Column, line: &[u8]) -> Result<Option<IpCidr>, LineError> {
    // most lines of addresses are one and nothing else, and this is the shortest way to it
    if let Some(network) = whole_network_at(column, line) {
        return Ok(Some(network));
    }
    if is_no_row(column.separator, line.trim_ascii()) {
        return Ok(None);
    }
    let field = field_at(column, line);
    if field.is_empty() {
        return Err(LineError::NoField);
    }
    match network_in(HostBits::Refused, field) {
        Ok(network) => Ok(Some(network)),
        Err(e) => Err(e),
    }
}

/// The address that the field of a column says; `None` for a line that is blank or a comment, as `network_at` has it.
///
/// The errors are `NoField` where the line has fewer fields or this one is empty; `NotUtf8` of the field; and then
/// `NoAddress`.
pub fn address_at(column: Column, line: &[u8]) -> Result<Option<IpAddr>, LineError> {
    if is_no_row(column.separator, line.trim_ascii()) {
        return Ok(None);
    }
    let field = field_at(column, line);
    if field.is_empty() {
        Err(LineError::NoField)
    } else {
        match address_in(field) {
            Ok(address) => Ok(Some(address)),
            Err(e) => Err(e),
        }
    }
}

/// Which address of a line is looked up.
#[derive(Clone, Copy, Debug, PartialEq)]
pub enum Asked {
    /// That of its first field, in front of a comment.
    First,
    /// That of the field of a column.
    Field(Column),
    /// The first one anywhere in it, as in a line of a log.
    Anywhere,
}

/// The address of a line that is looked up, if it has one: what `address_of`, `address_at` or `first_address` finds, which
/// has no error. A line of more than 1 MiB is for the caller to find.
#[inline]
pub fn asked_in(asked: Asked, line: &[u8]) -> Result<Option<IpAddr>, LineError> {
    match asked {
        Asked::First => address_of(line),
        Asked::Field(column) => address_at(column, line),
        Asked::Anywhere => Ok(first_address(line)),
    }
}

/// What is written between the fields of a line: the byte that parts them, or a space.
#[inline]
fn joint_by(separator: Separator) -> u8 {
    match separator {
        Separator::WhiteSpace => b' ',
        Separator::Byte(separator) => separator,
    }
}

/// What is written between a line and what is added to it.
#[inline]
pub fn joint_of(asked: Asked) -> u8 {
    match asked {
        Asked::First | Asked::Anywhere => b' ',
        Asked::Field(column) => joint_by(column.separator),
    }
}

/// A line without the carriage returns at its end.
#[inline]
pub fn without_returns(line: &[u8]) -> &[u8] {
    let mut rest = line;
    while let Some((b'\r', front)) = rest.split_last() {
        rest = front;
    }
    rest
}
