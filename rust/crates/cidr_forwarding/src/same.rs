//! Whether two tables forward each address to the same value.

use crate::halves::halve;
use crate::tables::rows_of;
use cidr::NetworkBits;
use cidr_table::LpmTable;

/// Whether two tables forward the same: each address has the same value in both, or in neither one.
///
/// The caller has to ensure that `==` of the values tells equality, as it does for numbers and addresses. It goes
/// through the rows of both once, in a time that grows with their number and their bits, up to the first network where
/// they differ, and allocates nothing.
///
/// ```
/// # use cidr::*;
/// # use cidr_table::*;
/// # use cidr_support::alloc::Global;
/// # use cidr_forwarding::*;
/// let rows = [("0.0.0.0/0".parse()?, 1), ("10.0.0.0/8".parse()?, 2), ("10.1.0.0/16".parse()?, 2),
///             ("192.0.2.0/25".parse()?, 3), ("192.0.2.128/25".parse()?, 3)];
/// let mut routes: LpmTable<Ipv4Cidr, u32> = rows.into_iter().collect();
/// let smallest = routes.smallest(Global)?;
/// assert!(forwards_same(&routes, &smallest));
/// routes.set("10.1.0.0/16".parse()?, 3)?;
/// assert!(!forwards_same(&routes, &smallest));
/// # Ok::<(), Box<dyn std::error::Error>>(())
/// ```
#[inline]
pub fn forwards_same<C: NetworkBits + Copy, V: Copy + Eq>(
    one: &LpmTable<C, V>,
    other: &LpmTable<C, V>,
) -> bool {
    let rows = rows_of(one);
    let others = rows_of(other);
    agree(rows, others, 0, None, None)
}

/// Whether the rows of a network forward the same, where each has inherited a value.
#[inline]
fn agree<C: NetworkBits + Copy, V: Copy + Eq>(
    rows: &[(C, V)],
    others: &[(C, V)],
    depth: usize,
    inherited: Option<V>,
    other_inherited: Option<V>,
) -> bool {
    let one = halve(rows, depth, inherited);
    let other = halve(others, depth, other_inherited);
    if are_ended(one.rest, other.rest, depth) {
        return one.own == other.own;
    }
    agree(one.lower, other.lower, depth + 1, one.own, other.own)
        && agree(one.upper, other.upper, depth + 1, one.own, other.own)
}

/// Whether there are no rows of more bits.
#[inline]
pub(crate) fn are_ended<C: NetworkBits + Copy, V: Copy>(
    rest: &[(C, V)],
    other_rest: &[(C, V)],
    depth: usize,
) -> bool {
    // No key has more than 129 bits.
    if depth < 129 {
        return rest.is_empty() && other_rest.is_empty();
    }
    true
}
