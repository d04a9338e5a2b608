//! Prefix lists: rows in order, each of which permits or denies networks.

use cidr_support::vec::Vec;
pub use crate::joined::permitted;
pub use crate::shadows::shadowed;
use cidr::{FamilyCidr, NetworkBits};
use cidr_sets::access::{self, Action, Rule};
use cidr_sets::{NetworkSet, is_inside};
use cidr_support::alloc::{AllocError, Global};

/// A row of a prefix list: `permit 10.0.0.0/8 ge 16 le 24`.
#[derive(Debug, Clone, Copy)]
pub struct Row<C: NetworkBits + Copy> {
    /// What the row does with the networks that it is about, where no earlier row is about them.
    pub action: Action,
    /// It is about networks in this one.
    pub network: C,
    /// The least prefix length of these in bits: after `ge`, and without it that of the network.
    pub low: u8,
    /// The greatest: after `le`, and without it the full one after `ge`, else that of the network.
    pub high: u8,
}

/// Whether a prefix list permits a network: the first row that is about it decides, and none means no.
///
/// It goes through the rows up to the one that decides, O(n), and takes no memory.
///
/// ```
/// # use cidr::Ipv4Cidr;
/// # use cidr_routes::{lists::*, *};
/// # use cidr_sets::access::Action;
/// # use cidr_support::{alloc::Global, vec::Vec};
/// let rows = [(Action::Deny, "10.2.0.0/16", 16, 32), (Action::Permit, "10.0.0.0/8", 16, 24), (Action::Deny, "10.3.0.0/16", 20, 24)];
/// let rows = rows.map(|(action, n, low, high)| Row { action, network: n.parse::<Ipv4Cidr>().unwrap(), low, high });
/// assert!(permits(&rows, &"10.1.0.0/16".parse()?));
/// assert!(!permits(&rows, &"10.0.0.0/8".parse()?));
/// # Ok::<(), Box<dyn std::error::Error>>(())
/// ```
#[inline]
pub fn permits<C: FamilyCidr>(rows: &[Row<C>], network: &C) -> bool {
    for row in rows {
        if row_matches(row, network) {
            return is_permit(row.action);
        }
    }
    false
}

/// Whether an action permits.
#[inline]
fn is_permit(action: Action) -> bool {
    match action {
        Action::Permit => true,
        Action::Deny => false,
    }
}

/// Whether a row is about a network.
#[inline]
fn row_matches<C: FamilyCidr>(row: &Row<C>, network: &C) -> bool {
    let len = network.network_length();
    row.low <= len && len <= row.high && is_inside(network, &row.network)
}

/// Whether a row is about networks of this length.
#[inline]
pub(crate) fn has_length<C: FamilyCidr>(row: &Row<C>, len: u8) -> bool {
    row.network.network_length() <= len && row.low <= len && len <= row.high
}

/// The rows about networks of this length, as rules about their addresses.
pub(crate) fn rules_of_length<C: FamilyCidr>(
    alloc: Global,
    rows: &[Row<C>],
    len: u8,
) -> Result<Vec<Rule<C>>, AllocError> {
    let mut rules = Vec::new(alloc);
    for row in rows {
        if has_length(row, len) {
            rules.push(Rule {
                action: row.action,
                network: row.network,
            })?;
        }
    }
    Ok(rules)
}

/// The networks of one length that a prefix list permits, as the set of their addresses.
#[inline]
pub(crate) fn permitted_of_length<C: FamilyCidr>(
    alloc: Global,
    rows: &[Row<C>],
    len: u8,
) -> Result<NetworkSet<C>, AllocError> {
    let rules = rules_of_length(alloc, rows, len)?;
    let set = access::permitted(alloc, rules.as_slice())?;
    Ok(set)
}

/// Whether a row is about networks of this length and not of one bit less, or the other way round.
pub(crate) fn is_changed<C: FamilyCidr>(rows: &[Row<C>], len: u8) -> bool {
    if len == 0 {
        return true;
    }
    for row in rows {
        let here = has_length(row, len);
        let before = has_length(row, len - 1);
        if !is_same(here, before) {
            return true;
        }
    }
    false
}

/// Whether both are true or both false.
#[inline]
fn is_same(one: bool, other: bool) -> bool {
    one == other
}

/// Networks of one length that one of two prefix lists permits, and the other doesn't.
#[derive(Debug, Clone, Copy)]
pub struct OneSided<C: NetworkBits + Copy> {
    /// All networks of the length in this one.
    pub network: C,
    /// Their prefix length in bits.
    pub len: u8,
    /// Whether it is the first list that permits them, and else the second.
    pub by_first: bool,
}

/// Whether two prefix lists permit the same networks: `None` if so, and else some that one of them permits alone, of the
/// least prefix length.
///
/// For each prefix length at which a row begins or ends it makes the sets of both, as `access::permitted` does: O(n log n) for
/// n rows each time. Where an allocation fails, it returns the error.
///
/// ```
/// # use cidr::Ipv4Cidr;
/// # use cidr_routes::{lists::*, *};
/// # use cidr_sets::access::Action;
/// # use cidr_support::{alloc::Global, vec::Vec};
/// let rows = [(Action::Deny, "10.2.0.0/16", 16, 32), (Action::Permit, "10.0.0.0/8", 16, 24), (Action::Deny, "10.3.0.0/16", 20, 24)];
/// let rows = rows.map(|(action, n, low, high)| Row { action, network: n.parse::<Ipv4Cidr>().unwrap(), low, high });
/// let rows = [(Action::Deny, "10.2.0.0/16", 16, 32), (Action::Permit, "10.0.0.0/8", 16, 24), (Action::Deny, "10.3.0.0/16", 20, 24)];
/// let rows = rows.map(|(action, n, low, high)| Row { action, network: n.parse::<Ipv4Cidr>().unwrap(), low, high });
/// let others = [rows[0]];
/// assert_eq!(format!("{:?}", difference(Global, &rows, &others)?), "Some(OneSided { network: 10.0.0.0/15, len: 16, by_first: true })");
/// # Ok::<(), Box<dyn std::error::Error>>(())
/// ```
///
/// # Errors
///
/// `AllocError` where memory runs out.
pub fn difference<C: FamilyCidr>(
    alloc: Global,
    these: &[Row<C>],
    those: &[Row<C>],
) -> Result<Option<OneSided<C>>, AllocError> {
    let full = full_length::<C>();
    for len in 0..full + 1 {
        match difference_at(alloc, these, those, len)? {
            Some(found) => {
                return Ok(Some(found));
            }
            None => (),
        }
    }
    Ok(None)
}

/// The full prefix length.
#[inline]
pub(crate) fn full_length<C: FamilyCidr>() -> u8 {
    C::FAMILY.len()
}

/// The same of the networks of one length, where the shorter ones are the same.
fn difference_at<C: FamilyCidr>(
    alloc: Global,
    these: &[Row<C>],
    those: &[Row<C>],
    len: u8,
) -> Result<Option<OneSided<C>>, AllocError> {
    if !are_changed(these, those, len) {
        return Ok(None);
    }
    let set = permitted_of_length(alloc, these, len)?;
    let other = permitted_of_length(alloc, those, len)?;
    let network = first_alone(&set, &other)?;
    match network {
        Some(network) => {
            return Ok(Some(OneSided {
                network,
                len,
                by_first: true,
            }));
        }
        None => (),
    }
    let network = first_alone(&other, &set)?;
    match network {
        Some(network) => Ok(Some(OneSided {
            network,
            len,
            by_first: false,
        })),
        None => Ok(None),
    }
}

/// Whether a row of one of the lists is about networks of this length and not of one bit less, or the other way round.
#[inline]
fn are_changed<C: FamilyCidr>(these: &[Row<C>], those: &[Row<C>], len: u8) -> bool {
    is_changed(these, len) || is_changed(those, len)
}

/// The first network of the addresses that only the first set has.
#[inline]
fn first_alone<C: FamilyCidr>(
    set: &NetworkSet<C>,
    other: &NetworkSet<C>,
) -> Result<Option<C>, AllocError> {
    let alone = set.difference(other)?;
    Ok(alone.as_slice().first().copied())
}
