//! What the rules of two lists leave of a region.

use cidr_support::vec::Vec;
use crate::errors::RulesError;
use crate::fields::FieldValue;
use crate::joining::push_joined;
use crate::parts::next_rest;
use crate::regions::{Packet, Region};
use crate::rules::{Rule, is_permit};
use cidr_support::alloc::{AllocError, Global};

/// Whether one rule has all packets of the region.
#[inline]
fn one_holds<A: FieldValue>(region: &Region<A>, rules: &[Rule<A>]) -> bool {
    rules.iter().any(|rule| region.is_within(&rule.region))
}

/// Whether the rule has a packet, and may have one of the region.
#[inline]
fn is_hole<A: FieldValue>(region: &Region<A>, rule: &Rule<A>) -> bool {
    region.meets(&rule.region) && rule.region.has_packet()
}

/// Whether the region has a packet, and no rule of two lists has all of them.
#[inline]
fn is_open<A: FieldValue>(region: &Region<A>, rules: &[Rule<A>], others: &[Rule<A>]) -> bool {
    region.has_packet() && (!one_holds(region, rules) && !one_holds(region, others))
}

/// Appends the regions of the rules that may matter in the region.
#[inline]
fn push_holes<A: FieldValue>(
    holes: &mut Vec<Region<A>>,
    region: &Region<A>,
    rules: &[Rule<A>],
) -> Result<(), AllocError> {
    for rule in rules {
        if is_hole(region, rule) {
            holes.push(rule.region)?;
        }
    }
    Ok(())
}

/// Begins the search for the packets of the region that no rule of two lists has: parts that are to be looked at, and the
/// regions that are left out of them.
#[inline]
pub(crate) fn begin_search<A: FieldValue>(
    parts: &mut Vec<Region<A>>,
    holes: &mut Vec<Region<A>>,
    region: &Region<A>,
    rules: &[Rule<A>],
    others: &[Rule<A>],
) -> Result<(), AllocError> {
    if !is_open(region, rules, others) {
        return Ok(());
    }
    push_holes(holes, region, rules)?;
    push_holes(holes, region, others)?;
    parts.push(*region)?;
    Ok(())
}

/// A packet of the region that no rule of two lists has, if there is one.
pub(crate) fn free_packet<A: FieldValue>(
    alloc: Global,
    region: &Region<A>,
    rules: &[Rule<A>],
    others: &[Rule<A>],
    budget: &mut u64,
) -> Result<Option<Packet<A>>, RulesError> {
    let mut parts = Vec::new(alloc);
    let mut holes = Vec::new(alloc);
    begin_search(&mut parts, &mut holes, region, rules, others)?;
    let found = next_rest(&mut parts, &holes, budget)?;
    match found {
        Some(rest) => Ok(Some(rest.first_packet())),
        None => Ok(None),
    }
}

/// The packets of the region that no rule of two lists has: regions of which no two have a packet in common.
pub(crate) fn rests<A: FieldValue>(
    alloc: Global,
    region: &Region<A>,
    rules: &[Rule<A>],
    others: &[Rule<A>],
    budget: &mut u64,
) -> Result<Vec<Region<A>>, RulesError> {
    let mut parts = Vec::new(alloc);
    let mut holes = Vec::new(alloc);
    let mut out = Vec::new(alloc);
    begin_search(&mut parts, &mut holes, region, rules, others)?;
    loop {
        let found = next_rest(&mut parts, &holes, budget)?;
        match found {
            Some(rest) => push_joined(&mut out, &rest)?,
            None => return Ok(out),
        }
    }
}

/// The first rules of a list.
#[inline]
pub(crate) fn first_rules<A: FieldValue>(rules: &[Rule<A>], i: usize) -> &[Rule<A>] {
    &rules[..i]
}

/// Whether the rule at an index permits; behind the last rule, packets are denied.
#[inline]
fn permits_from<A: FieldValue>(rules: &[Rule<A>], i: usize) -> bool {
    if i < rules.len() {
        is_permit(rules[i].action)
    } else {
        false
    }
}

/// The packets that both rules have, of which one may stand behind its list's last and has every packet.
fn both<A: FieldValue>(
    rules: &[Rule<A>],
    i: usize,
    others: &[Rule<A>],
    j: usize,
) -> Option<Region<A>> {
    if i < rules.len() {
        if j < others.len() {
            if rules[i].region.meets(&others[j].region) {
                Some(rules[i].region.shared(&others[j].region))
            } else {
                None
            }
        } else {
            Some(rules[i].region)
        }
    } else {
        Some(others[j].region)
    }
}

/// The packets that both rules have, if one permits and the other doesn't.
#[inline]
pub(crate) fn disputed<A: FieldValue>(
    rules: &[Rule<A>],
    i: usize,
    others: &[Rule<A>],
    j: usize,
) -> Option<Region<A>> {
    let permitted = permits_from(rules, i);
    let other = permits_from(others, j);
    let apart = is_different(permitted, other);
    if !apart {
        return None;
    }
    both(rules, i, others, j)
}

/// Whether one of two lists permits, and the other doesn't.
#[inline]
fn is_different(permitted: bool, other: bool) -> bool {
    if permitted { !other } else { other }
}
