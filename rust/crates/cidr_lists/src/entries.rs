//! The lines of lists that have a network or a host.

use crate::errors::{BadText, LineError};
use crate::lines::without_comment;
use cidr::{IpInet, Ipv4Inet};
use cidr_io::shown::byte_excerpt;

/// Where a line stands.
#[derive(Clone, Copy, Debug)]
pub struct Place<'a> {
    /// The name of the file.
    pub file: &'a str,
    /// The number of the line, from 1 on.
    pub number: u64,
}

/// A line that has a network or a host.
#[derive(Clone, Copy, Debug)]
pub struct Entry<'a> {
    /// Where the line stands.
    pub place: Place<'a>,
    /// The host; a network is the host at its first address.
    pub host: IpInet,
    /// Whether the field is what is printed of the host, without a full prefix length.
    pub is_canonical: bool,
}

/// The line at an index, counted from 0. The caller has to ensure that there is one.
#[inline]
pub fn entry_at<'e, 'a>(entries: &'e [Entry<'a>], index: usize) -> &'e Entry<'a> {
    &entries[index]
}

/// Whether a string ends in a slash and this prefix length.
#[inline]
fn ends_in_length(text: &[u8], len: u8) -> bool {
    if len < 10 {
        return text.ends_with(&[b'/', b'0' + len]);
    }
    text.ends_with(&[b'/', b'0' + len / 10, b'0' + len % 10])
}

/// Whether a string that represents the host is what is printed of it. An IPv4 address has one string, so that the
/// prefix length decides.
fn is_plain_ipv4(text: &str, host: &Ipv4Inet) -> bool {
    let len = host.network_length();
    if len < 32 {
        return ends_in_length(text.as_bytes(), len);
    }
    let Some((_front, _back)) = text.split_once('/') else {
        return true;
    };
    false
}

/// Whether a string that represents the host is what is printed of it.
#[inline]
fn is_plain(text: &str, host: &IpInet) -> bool {
    match host {
        IpInet::V4(host) => is_plain_ipv4(text, host),
        IpInet::V6(_) => text == host.to_text().as_str(),
    }
}

/// The entry that a line has: what stands before its comment, without white space at both ends, as a network or a host.
/// `None` for a line that is blank or a comment alone. A range is in error here.
///
/// The errors are `NotUtf8`, and then `NoNetwork` with the first error of parsing a host. A line of more than 1 MiB is
/// for the caller to find.
pub fn entry_of<'a>(place: Place<'a>, line: &[u8]) -> Result<Option<Entry<'a>>, LineError> {
    let field = without_comment(line).trim_ascii();
    if field.is_empty() {
        return Ok(None);
    }
    let Ok(text) = core::str::from_utf8(field) else {
        return Err(LineError::NotUtf8(byte_excerpt(field)));
    };
    match text.parse::<IpInet>() {
        Ok(host) => Ok(Some(Entry {
            place,
            host,
            is_canonical: is_plain(text, &host),
        })),
        Err(e) => Err(LineError::NoNetwork(BadText::new(text), e)),
    }
}
