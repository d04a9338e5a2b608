//! How two access lists differ.

use cidr_support::vec::Vec;
use crate::errors::RulesError;
use crate::fields::FieldValue;
use crate::regions::{Packet, Region};
use crate::rules::Rule;
use crate::search::{disputed, first_rules, free_packet, rests};
use cidr_support::alloc::{AllocError, Global};

/// Packets that one of two lists permits and the other doesn't, and the rules that decide them.
#[derive(Debug, Clone, Copy)]
pub struct Difference<A: FieldValue> {
    /// The packets.
    pub region: Region<A>,
    /// The index of the rule of the first list that decides them, counted from 0, or `None` where no rule has them.
    pub rule: Option<usize>,
    /// The same of the second list.
    pub other: Option<usize>,
}

/// A packet that a rule of each list decides, and one list permits and the other doesn't, if there is one.
fn packet_of_pair<A: FieldValue>(
    alloc: Global,
    rules: &[Rule<A>],
    i: usize,
    others: &[Rule<A>],
    j: usize,
    budget: &mut u64,
) -> Result<Option<Packet<A>>, RulesError> {
    match disputed(rules, i, others, j) {
        Some(region) => {
            let before = first_rules(rules, i);
            let beside = first_rules(others, j);
            let packet = free_packet(alloc, &region, before, beside, budget)?;
            Ok(packet)
        }
        None => Ok(None),
    }
}

/// A packet that a rule of the first list decides, and one list permits and the other doesn't, if there is one.
pub(crate) fn packet_of_rule<A: FieldValue>(
    alloc: Global,
    rules: &[Rule<A>],
    i: usize,
    others: &[Rule<A>],
    budget: &mut u64,
) -> Result<Option<Packet<A>>, RulesError> {
    for j in 0..others.len() {
        let found = packet_of_pair(alloc, rules, i, others, j, budget)?;
        match found {
            Some(packet) => return Ok(Some(packet)),
            None => {}
        }
    }
    let last = packet_of_pair(alloc, rules, i, others, others.len(), budget)?;
    Ok(last)
}

/// A packet that one of two lists permits and the other doesn't, if there is one: `None` only where both permit the same
/// packets. Which rules decide it, [`decides`](crate::decides) tells.
///
/// For each two rules of different actions it looks at parts of what both have, and cuts them by the earlier rules of both lists
/// that meet them. Of n and m rules these are at most (n + 1) (m + 1) (2n + 2m + 1)^5 parts. Where it has looked at `limit` parts
/// and more are left, it returns `TooManyParts`. It keeps the regions of n + m rules, and 10 parts for each that was looked at.
///
/// ```
/// # use cidr::*;
/// # use cidr_rules::*;
/// # use cidr_support::alloc::Global;
/// let traffic = Traffic::Ports(Transport::Tcp, Range { first: 0, last: 65535 }, Range { first: 443, last: 443 });
/// let any: Ipv4Cidr = "0.0.0.0/0".parse()?;
/// let entry = Entry { action: Action::Permit, source: "10.0.0.0/8".parse()?, destination: any, traffic };
/// let other = Entry { action: Action::Deny, source: any, destination: any, traffic: Traffic::Any };
/// let rules = [entry.rule(), other.rule(), entry.rule()];
/// assert!(differing_packet(Global, &rules, &rules[1..], 1_000_000)?.is_some());
/// # Ok::<(), Box<dyn std::error::Error>>(())
/// ```
///
/// # Errors
///
/// `RulesError`, which tells what is wrong.
pub fn differing_packet<A: FieldValue>(
    alloc: Global,
    rules: &[Rule<A>],
    others: &[Rule<A>],
    limit: u64,
) -> Result<Option<Packet<A>>, RulesError> {
    let mut budget = limit;
    for i in 0..rules.len() {
        let found = packet_of_rule(alloc, rules, i, others, &mut budget)?;
        match found {
            Some(packet) => return Ok(Some(packet)),
            None => {}
        }
    }
    let last = packet_of_rule(alloc, rules, rules.len(), others, &mut budget)?;
    Ok(last)
}

/// The packets that the rules at two indices decide, if one permits and the other doesn't: regions of which no two have a packet
/// in common.
fn regions_of_pair<A: FieldValue>(
    alloc: Global,
    rules: &[Rule<A>],
    i: usize,
    others: &[Rule<A>],
    j: usize,
    budget: &mut u64,
) -> Result<Vec<Region<A>>, RulesError> {
    match disputed(rules, i, others, j) {
        Some(region) => {
            let before = first_rules(rules, i);
            let beside = first_rules(others, j);
            let regions = rests(alloc, &region, before, beside, budget)?;
            Ok(regions)
        }
        None => Ok(Vec::new(alloc)),
    }
}

/// The index, or `None` behind the last rule.
#[inline]
fn index_of<A: FieldValue>(rules: &[Rule<A>], i: usize) -> Option<usize> {
    if i < rules.len() { Some(i) } else { None }
}

/// Appends regions as differences of two rules.
fn push_regions<A: FieldValue>(
    out: &mut Vec<Difference<A>>,
    regions: &[Region<A>],
    rule: Option<usize>,
    other: Option<usize>,
) -> Result<(), AllocError> {
    for region in regions {
        out.push(Difference {
            region: *region,
            rule,
            other,
        })?;
    }
    Ok(())
}

/// Appends the differences of the packets that the rules at two indices decide.
#[inline]
fn push_pair<A: FieldValue>(
    alloc: Global,
    out: &mut Vec<Difference<A>>,
    rules: &[Rule<A>],
    i: usize,
    others: &[Rule<A>],
    j: usize,
    budget: &mut u64,
) -> Result<(), RulesError> {
    let regions = regions_of_pair(alloc, rules, i, others, j, budget)?;
    push_regions(out, &regions, index_of(rules, i), index_of(others, j))?;
    Ok(())
}

/// Appends the differences of the packets that the rule at an index of the first list decides.
#[inline]
fn push_rule<A: FieldValue>(
    alloc: Global,
    out: &mut Vec<Difference<A>>,
    rules: &[Rule<A>],
    i: usize,
    others: &[Rule<A>],
    budget: &mut u64,
) -> Result<(), RulesError> {
    for j in 0..others.len() {
        push_pair(alloc, out, rules, i, others, j, budget)?;
    }
    push_pair(alloc, out, rules, i, others, others.len(), budget)?;
    Ok(())
}

/// All packets that one of two lists permits and the other doesn't, as regions with the rule of each list that decides them. Each
/// such packet is in one region, and no other packet is in any. Two regions of the same rules that are together one region are
/// told as that.
///
/// It looks at parts as [`differing_packet`] does, though it ends at no packet, and returns `TooManyParts` as that does. What is
/// left of two rules is compared with the regions of these two that are told already. It tells no more regions than `limit`, and
/// keeps beside them what `differing_packet` keeps.
///
/// ```
/// # use cidr::*;
/// # use cidr_rules::*;
/// # use cidr_support::alloc::Global;
/// let traffic = Traffic::Ports(Transport::Tcp, Range { first: 0, last: 65535 }, Range { first: 443, last: 443 });
/// let any: Ipv4Cidr = "0.0.0.0/0".parse()?;
/// let entry = Entry { action: Action::Permit, source: "10.0.0.0/8".parse()?, destination: any, traffic };
/// let other = Entry { action: Action::Deny, source: any, destination: any, traffic: Traffic::Any };
/// let rules = [entry.rule(), other.rule(), entry.rule()];
/// assert_eq!(differences(Global, &rules, &rules[1..], 1_000_000)?.len(), 1);
/// # Ok::<(), Box<dyn std::error::Error>>(())
/// ```
///
/// # Errors
///
/// `RulesError`, which tells what is wrong.
#[inline]
pub fn differences<A: FieldValue>(
    alloc: Global,
    rules: &[Rule<A>],
    others: &[Rule<A>],
    limit: u64,
) -> Result<Vec<Difference<A>>, RulesError> {
    let mut budget = limit;
    let mut out = Vec::new(alloc);
    for i in 0..rules.len() {
        push_rule(alloc, &mut out, rules, i, others, &mut budget)?;
    }
    push_rule(alloc, &mut out, rules, rules.len(), others, &mut budget)?;
    Ok(out)
}
