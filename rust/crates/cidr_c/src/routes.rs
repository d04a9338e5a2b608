//! Origins of routes, and prefix lists.

use crate::finding::yes_or_no;
use crate::values::{CValue, value_network};
use cidr::{AnyIpCidr, BitString};
use cidr_routes::Validity;
use cidr_sets::access::Action;

/// A validated ROA payload.
#[repr(C)]
#[derive(Clone, Copy)]
pub struct CPayload {
    /// The network.
    pub network: CValue,
    /// The number of the AS.
    pub origin: u32,
    /// The greatest prefix length that may be announced.
    pub max_length: u32,
}

/// A row of a prefix list.
#[repr(C)]
#[derive(Clone, Copy)]
pub struct CPrefixRow {
    /// It is about networks in this one.
    pub network: CValue,
    /// 1 permits them, and any other number denies them.
    pub action: u32,
    /// The least prefix length of these.
    pub low: u16,
    /// The greatest.
    pub high: u16,
}

/// The AS that a number stands for, if it is one.
#[inline]
fn origin_of(origin: u64) -> Option<u32> {
    if origin < 1 << 32 {
        Some(origin as u32)
    } else {
        None
    }
}

/// The number of an answer.
#[inline]
fn validity_code(validity: Validity) -> u32 {
    match validity {
        Validity::Valid => 1,
        Validity::InvalidLength => 2,
        Validity::InvalidOrigin => 3,
        Validity::NotFound => 4,
    }
}

/// Whether the network of a value contains another one.
#[inline]
fn contains(value: &CValue, network: &AnyIpCidr) -> bool {
    match value_network(value) {
        Some(outer) => outer.contains_cidr(network),
        None => false,
    }
}

/// Whether a payload is for the AS of a route.
#[inline]
fn is_of_origin(payload: &CPayload, origin: Option<u32>) -> bool {
    match origin {
        Some(origin) => origin == payload.origin && origin != 0,
        None => false,
    }
}

/// What some payloads and one more say of a route.
fn beside(seen: Validity, payload: &CPayload, route: &AnyIpCidr, origin: Option<u32>) -> Validity {
    if !contains(&payload.network, route) {
        return seen;
    }
    if !is_of_origin(payload, origin) {
        return match seen {
            Validity::NotFound => Validity::InvalidOrigin,
            _ => seen,
        };
    }
    if route.len() as u64 <= u64::from(payload.max_length) + 1 {
        return Validity::Valid;
    }
    match seen {
        Validity::Valid => Validity::Valid,
        _ => Validity::InvalidLength,
    }
}

/// What payloads say of a route.
#[inline]
fn validity_of(payloads: &[CPayload], route: &AnyIpCidr, origin: Option<u32>) -> Validity {
    let mut seen = Validity::NotFound;
    for payload in payloads {
        seen = beside(seen, payload, route, origin);
    }
    seen
}

/// Whether each payload is for a network.
#[inline]
fn are_payloads(payloads: &[CPayload]) -> bool {
    payloads
        .iter()
        .all(|payload| value_network(&payload.network).is_some())
}

/// What payloads say of a route by RFC 6811: 1 where one of them matches it, 2 where its prefix is too long for those of its AS, 3
/// where those that cover it are of others, and 4 where none covers it; 0 where a value is no network. A number of an AS from 2^32
/// on stands for none. It goes through the payloads twice, and allocates nothing.
pub fn pcidr_validity(payloads: &[CPayload], route: &CValue, origin: u64) -> u32 {
    let Some(route) = value_network(route) else {
        return 0;
    };
    if are_payloads(payloads) {
        validity_code(validity_of(payloads, &route, origin_of(origin)))
    } else {
        0
    }
}

/// What a row does.
#[inline]
fn row_action(row: &CPrefixRow) -> Action {
    if row.action == 1 {
        Action::Permit
    } else {
        Action::Deny
    }
}

/// Whether a row permits the networks that it is about.
#[inline]
fn is_permit(row: &CPrefixRow) -> bool {
    match row_action(row) {
        Action::Permit => true,
        Action::Deny => false,
    }
}

/// Whether a row is about a network.
#[inline]
fn is_about(row: &CPrefixRow, network: &AnyIpCidr) -> bool {
    let len = network.len() as u64;
    u64::from(row.low) + 1 <= len
        && len <= u64::from(row.high) + 1
        && contains(&row.network, network)
}

/// Whether each row has a network.
#[inline]
fn are_prefix_rows(rows: &[CPrefixRow]) -> bool {
    rows.iter().all(|row| value_network(&row.network).is_some())
}

/// Whether the first row that is about a network permits it.
#[inline]
fn is_permitted(rows: &[CPrefixRow], network: &AnyIpCidr) -> bool {
    for row in rows {
        if is_about(row, network) {
            return is_permit(row);
        }
    }
    false
}

/// 1 where all values are networks and the first row of the prefix list that is about the network permits it, and 0 where not. It goes
/// through the rows twice at most, and allocates nothing.
pub fn pcidr_list_permits(rows: &[CPrefixRow], network: &CValue) -> u32 {
    let Some(network) = value_network(network) else {
        return 0;
    };
    if are_prefix_rows(rows) {
        yes_or_no(is_permitted(rows, &network))
    } else {
        0
    }
}
