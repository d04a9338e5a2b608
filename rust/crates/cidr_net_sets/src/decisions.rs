//! Which addresses each rule of an access list decides.

use cidr_support::vec;
use cidr_support::vec::Vec;
use crate::access::Rule;
use crate::rests::half;
use cidr::names::NetworkBits;
use cidr_table::{LpmTable, is_inside};
use cidr_support::alloc::{AllocError, Global};

/// What the rules of an access list decide.
pub struct Decisions<C: NetworkBits + Copy> {
    /// Networks of all addresses that a rule decides, each with the index of that rule.
    pub parts: Vec<(C, usize)>,
    /// The indices of the rules that decide no address, ascending.
    pub unreached: Vec<usize>,
}

/// What the rules decide.
///
/// It sorts their networks once and goes through them: O(n log n) for n rules, and a step for each part. Of these there
/// are at most n where no network is cut out of another, and else one more for each bit of each network. Beside them it
/// takes room for n rows, and then for n marks.
///
/// # Errors
///
/// `AllocError` where memory runs out.
#[inline]
pub fn decide_all<C: NetworkBits + Copy>(
    alloc: Global,
    rules: &[Rule<C>],
) -> Result<Decisions<C>, AllocError> {
    let parts = parts_of(alloc, rules)?;
    let unreached = unreached_in(alloc, parts.as_slice(), rules.len())?;
    Ok(Decisions { parts, unreached })
}

/// The networks of all addresses that a rule decides, each with the index of that rule.
#[inline]
fn parts_of<C: NetworkBits + Copy>(
    alloc: Global,
    rules: &[Rule<C>],
) -> Result<Vec<(C, usize)>, AllocError> {
    let rows = rule_rows(alloc, rules)?;
    let mut parts = Vec::new(alloc);
    let mut left = rows.as_slice();
    while let Some((row, behind)) = left.split_first() {
        left = push_parts(&mut parts, &row.0, row.1, behind)?;
    }
    Ok(parts)
}

/// The networks of the rules, each with its index: in their order, and equal ones in that of the rules.
#[inline]
fn rule_rows<C: NetworkBits + Copy>(
    alloc: Global,
    rules: &[Rule<C>],
) -> Result<Vec<(C, usize)>, AllocError> {
    let mut rows = Vec::with_capacity(alloc, rules.len())?;
    for (index, rule) in rules.iter().enumerate() {
        rows.push((rule.network, index))?;
    }
    rows.sort_unstable();
    Ok(rows)
}

/// Pushes networks of all addresses of a network, each with the least index of those that contain it: of this network and
/// of the rows. Returns the rows behind the network.
///
/// Where the next row lies in the network and comes earlier in the list, the network is halved. Other rows in it play no
/// part.
fn push_parts<'a, C: NetworkBits + Copy>(
    parts: &mut Vec<(C, usize)>,
    network: &C,
    index: usize,
    rows: &'a [(C, usize)],
) -> Result<&'a [(C, usize)], AllocError> {
    let mut least = index;
    let mut left = rows;
    while let Some((row, behind)) = left.split_first() {
        if !is_inside(&row.0, network) {
            break;
        }
        if row.1 < least {
            if network.len() < row.0.len() {
                let lower = half(network, &row.0, false);
                let rest = push_parts(parts, &lower, least, left)?;
                let upper = half(network, &row.0, true);
                return push_parts(parts, &upper, least, rest);
            }
            least = row.1;
        }
        left = behind;
    }
    parts.push((*network, least))?;
    Ok(left)
}

/// The indices below `count` that no part has, ascending.
fn unreached_in<C>(
    alloc: Global,
    parts: &[(C, usize)],
    count: usize,
) -> Result<Vec<usize>, AllocError> {
    let mut reached = vec![in alloc; false; count]?;
    for part in parts {
        reached[part.1] = true;
    }
    let mut out = Vec::new(alloc);
    for (index, is_reached) in reached.iter().enumerate() {
        if !*is_reached {
            out.push(index)?;
        }
    }
    Ok(out)
}

/// The indices of the rules that decide the addresses of a network, ascending, where the rows tell the rule of each
/// address in the network of any rule.
///
/// # Errors
///
/// `AllocError` where memory runs out.
pub fn deciding_in<C: NetworkBits + Copy>(
    alloc: Global,
    parts: &LpmTable<C, usize>,
    network: &C,
) -> Result<Vec<usize>, AllocError> {
    match parts.lookup(network) {
        Some(row) => {
            let mut by = Vec::new(alloc);
            by.push(row.1)?;
            Ok(by)
        }
        None => indices_of(alloc, parts.inside(network)),
    }
}

/// The indices of rows, ascending and each once.
#[inline]
fn indices_of<C>(alloc: Global, rows: &[(C, usize)]) -> Result<Vec<usize>, AllocError> {
    let mut out = Vec::new(alloc);
    for row in rows {
        out.push(row.1)?;
    }
    out.sort_unstable();
    out.dedup();
    Ok(out)
}
