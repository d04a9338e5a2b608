//! Where two tables forward addresses to different values.

use cidr_support::vec::Vec;
use crate::halves::{half, halve};
use crate::same::are_ended;
use crate::tables::rows_of;
use cidr::NetworkBits;
use cidr_table::LpmTable;
use cidr_support::alloc::{AllocError, Global};

/// The values of an address in one table and in another, or `None` where a table has none.
pub type Answers<V> = (Option<V>, Option<V>);

/// Where two tables forward differently: the largest networks in which each table has one answer for all addresses, and
/// not the same one, each with both answers. They ascend, and each address that the tables forward differently is in one
/// and only one of them.
///
/// The caller has to ensure that `==` of the values tells equality, as it does for numbers and addresses. It goes
/// through the rows of both once, in a time that grows with their number and their bits. The error is that an allocation
/// fails; only the result is allocated.
///
/// ```
/// # use cidr::*;
/// # use cidr_table::*;
/// # use cidr_support::alloc::Global;
/// # use cidr_forwarding::*;
/// let rows = [("0.0.0.0/0".parse()?, 1), ("10.0.0.0/8".parse()?, 2), ("10.1.0.0/16".parse()?, 2),
///             ("192.0.2.0/25".parse()?, 3), ("192.0.2.128/25".parse()?, 3)];
/// let mut routes: LpmTable<Ipv4Cidr, u32> = rows.into_iter().collect();
/// let smallest = routes.smallest(Global)?;
/// routes.set("10.1.0.0/16".parse()?, 3)?;
/// assert!(!forwards_same(&routes, &smallest));
/// assert_eq!(format!("{:?}", differences(Global, &routes, &smallest)?), "[(10.1.0.0/16, (Some(3), Some(2)))]");
/// # Ok::<(), Box<dyn std::error::Error>>(())
/// ```
///
/// # Errors
///
/// `AllocError` where memory runs out.
#[inline]
pub fn differences<C: NetworkBits + Copy, V: Copy + Eq>(
    alloc: Global,
    one: &LpmTable<C, V>,
    other: &LpmTable<C, V>,
) -> Result<Vec<(C, Answers<V>)>, AllocError> {
    let rows = rows_of(one);
    let others = rows_of(other);
    let mut out = Vec::new(alloc);
    differ(rows, others, 0, None, None, C::null(), &mut out)?;
    Ok(out)
}

/// Appends the rows of a network, where each table has inherited a value. Returns the values of all its addresses, if
/// they have the same in each table.
fn differ<C: NetworkBits + Copy, V: Copy + Eq>(
    rows: &[(C, V)],
    others: &[(C, V)],
    depth: usize,
    inherited: Option<V>,
    other_inherited: Option<V>,
    network: C,
    out: &mut Vec<(C, Answers<V>)>,
) -> Result<Option<Answers<V>>, AllocError> {
    let one = halve(rows, depth, inherited);
    let other = halve(others, depth, other_inherited);
    if are_ended(one.rest, other.rest, depth) {
        list(network, (one.own, other.own), out)?;
        return Ok(Some((one.own, other.own)));
    }
    let lower = half_of(one.rest, other.rest, depth, network, false);
    let upper = half_of(one.rest, other.rest, depth, network, true);
    let before = out.len();
    let low = differ(
        one.lower,
        other.lower,
        depth + 1,
        one.own,
        other.own,
        lower,
        out,
    )?;
    let high = differ(
        one.upper,
        other.upper,
        depth + 1,
        one.own,
        other.own,
        upper,
        out,
    )?;
    match shared_values(low, high) {
        Some(values) => {
            out.truncate(before);
            list(network, values, out)?;
            Ok(Some(values))
        }
        None => Ok(None),
    }
}

/// Appends the row of a network with these values, if they differ.
#[inline]
fn list<C: Copy, V: Copy + Eq>(
    network: C,
    values: Answers<V>,
    out: &mut Vec<(C, Answers<V>)>,
) -> Result<(), AllocError> {
    if values.0 == values.1 {
        return Ok(());
    }
    out.push((network, values))?;
    Ok(())
}

/// The values of both halves, if they are the same.
fn shared_values<V: Copy + Eq>(
    low: Option<Answers<V>>,
    high: Option<Answers<V>>,
) -> Option<Answers<V>> {
    let (Some(low), Some(high)) = (low, high) else {
        return None;
    };
    if low.0 == high.0 && low.1 == high.1 {
        Some(low)
    } else {
        None
    }
}

/// A half of the network of `depth` bits that all rows are of.
#[inline]
fn half_of<C: NetworkBits + Copy, V: Copy>(
    rest: &[(C, V)],
    other_rest: &[(C, V)],
    depth: usize,
    network: C,
    upper: bool,
) -> C {
    if rest.is_empty() {
        half(&other_rest[0].0, depth, upper)
    } else {
        half(&rest[0].0, depth, upper)
    }
}
