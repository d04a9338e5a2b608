//! Whole lists as bytes: reading one to its end or to its first line in error, and printing a set. Of the lines
//! `192.0.2.0/25  # ours` and `192.0.2.128-192.0.2.255` the set is printed as 192.0.2.0/24. The calls are `of_text` of
//! `Lists` and of `Sets`, and `to_text` of `Sets`.

use cidr_support::vec::Vec;
use crate::errors::{LineError, ListError};
use crate::lines::{HostBits, content_of};
use crate::lists::Lists;
use crate::sets::{Form, Sets};
use cidr::{FamilyCidr, Ipv4Cidr, Ipv6Cidr};
use cidr_io::decimal::count_text;
use cidr_io::lines::{feed_in, is_too_long};
use cidr_support::alloc::{AllocError, Global};

/// How many bytes the first line has, without its line feed.
#[inline]
pub(crate) fn line_len(text: &[u8]) -> usize {
    feed_in(text).unwrap_or(text.len())
}

/// Adds the networks that a line says.
fn add_list_line(
    alloc: Global,
    host_bits: HostBits,
    number: u64,
    line: &[u8],
    lists: &mut Lists,
) -> Result<(), ListError> {
    if is_too_long(line) {
        return Err(ListError::Line(number, LineError::TooLong));
    }
    match content_of(host_bits, line) {
        Ok(content) => {
            lists.push_content(alloc, &content)?;
            Ok(())
        }
        Err(e) => Err(ListError::Line(number, e)),
    }
}

impl Lists {
    /// The networks that a list says: a network, an address or a range a line, with white space around it and a comment
    /// behind it from `#` or `;` on. The error is that of the first line in error, with its number from 1 on, where one
    /// of more than 1 MiB is `TooLong`; `NoMemory` may come before it. It takes time in the length of the text.
    pub fn of_text(alloc: Global, host_bits: HostBits, text: &[u8]) -> Result<Lists, ListError> {
        let mut lists = Lists::new(alloc);
        let mut rest = text;
        let mut number = 1;
        loop {
            let (line, behind) = rest.split_at(line_len(rest));
            add_list_line(alloc, host_bits, number, line, &mut lists)?;
            let Some((_, next)) = behind.split_first() else {
                return Ok(lists);
            };
            rest = next;
            number += 1;
        }
    }
}

/// Appends networks, one a line.
#[inline]
fn push_networks<C: FamilyCidr>(text: &mut Vec<u8>, networks: &[C]) -> Result<(), AllocError> {
    for network in networks {
        text.extend_from_slice(network.to_text().as_str().as_bytes())?;
        text.push(b'\n')?;
    }
    Ok(())
}

/// Appends a range, or its one address, as a line.
fn push_range<C: FamilyCidr>(
    text: &mut Vec<u8>,
    first: C::Address,
    last: C::Address,
) -> Result<(), AllocError> {
    text.extend_from_slice(C::address_text(&first).as_str().as_bytes())?;
    if C::to_number(first) == C::to_number(last) {
        text.push(b'\n')?;
        return Ok(());
    }
    text.push(b'-')?;
    text.extend_from_slice(C::address_text(&last).as_str().as_bytes())?;
    text.push(b'\n')?;
    Ok(())
}

impl Sets {
    /// The addresses that a list says, as [`Lists::of_text`] reads it, with its errors. It sorts the networks besides:
    /// O(n log n).
    #[inline]
    pub fn of_text(alloc: Global, host_bits: HostBits, text: &[u8]) -> Result<Sets, ListError> {
        let lists = Lists::of_text(alloc, host_bits, text)?;
        Ok(Sets::of_lists(lists))
    }

    /// The networks, one a line, ascending, IPv4 before IPv6.
    #[inline]
    fn to_network_lines(&self, alloc: Global) -> Result<Vec<u8>, AllocError> {
        let mut text = Vec::new(alloc);
        push_networks(&mut text, self.v4.as_slice())?;
        push_networks(&mut text, self.v6.as_slice())?;
        Ok(text)
    }

    /// The longest ranges, one a line, ascending, IPv4 before IPv6.
    fn to_range_lines(&self, alloc: Global) -> Result<Vec<u8>, AllocError> {
        let mut text = Vec::new(alloc);
        let mut v4 = self.v4.ranges();
        while let Some(range) = v4.next() {
            push_range::<Ipv4Cidr>(&mut text, range.first, range.last)?;
        }
        let mut v6 = self.v6.ranges();
        while let Some(range) = v6.next() {
            push_range::<Ipv6Cidr>(&mut text, range.first, range.last)?;
        }
        Ok(text)
    }

    /// How many addresses of each family there are, a line each.
    #[inline]
    fn to_count_lines(&self, alloc: Global) -> Result<Vec<u8>, AllocError> {
        let mut text = Vec::new(alloc);
        text.extend_from_slice(b"IPv4 ")?;
        text.extend_from_slice(count_text(self.v4.address_count()).as_str().as_bytes())?;
        text.extend_from_slice(b"\nIPv6 ")?;
        text.extend_from_slice(count_text(self.v6.address_count()).as_str().as_bytes())?;
        text.push(b'\n')?;
        Ok(text)
    }

    /// What is printed of the addresses in this form, as bytes: a line for each network or range, those of IPv4 first,
    /// or the lines `IPv4 COUNT` and `IPv6 COUNT`. It looks at each network once. The error is that an allocation fails.
    #[inline]
    pub fn to_text(&self, alloc: Global, form: Form) -> Result<Vec<u8>, AllocError> {
        match form {
            Form::Networks => self.to_network_lines(alloc),
            Form::Ranges => self.to_range_lines(alloc),
            Form::Counts => self.to_count_lines(alloc),
        }
    }
}
