//! Printing an address with its prefix length, as networks and hosts do, and pairs in parentheses.

use crate::addr::decimal::push_decimal;
use crate::internal_traits::address_bits::AddressText;
use cidr_support::arrayvec::ArrayString;
use core::fmt;

/// Appends a slash and the prefix length.
#[inline(always)]
fn push_length(text: &mut ArrayString<43>, n: u8) {
    text.push('/');
    push_decimal(text, n);
}

/// The address and its prefix length.
#[inline(always)]
pub(crate) fn forced<A: AddressText>(address: A, len: u8) -> ArrayString<43> {
    let mut text = ArrayString::new();
    address.push_to(&mut text);
    push_length(&mut text, len);
    text
}

/// The address, and its prefix length unless that is full.
#[inline(always)]
pub(crate) fn plain<A: AddressText>(address: A, len: u8) -> ArrayString<43> {
    let mut text = ArrayString::new();
    address.push_to(&mut text);
    if len != A::FAMILY.len() {
        push_length(&mut text, len);
    }
    text
}

/// Two strings in parentheses, with a comma and a space between them.
#[inline]
pub(crate) fn parenthesized(first: &str, second: &str) -> ArrayString<90> {
    let mut text = ArrayString::new();
    text.push('(');
    text.push_str(first);
    text.push_str(", ");
    text.push_str(second);
    text.push(')');
    text
}

/// Appends a string where there is room for it.
#[inline(always)]
pub(crate) fn append<const CAP: usize>(text: &mut ArrayString<CAP>, printed: &str) -> fmt::Result {
    if CAP - text.len() < printed.len() {
        return Err(fmt::Error);
    }
    text.push_str(printed);
    Ok(())
}
