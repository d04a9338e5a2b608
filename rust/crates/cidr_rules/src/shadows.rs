//! Rules that an access list doesn't need.

use cidr_support::vec::Vec;
use crate::comparing::packet_of_rule;
use crate::errors::RulesError;
use crate::fields::FieldValue;
use crate::rules::Rule;
use crate::search::{first_rules, free_packet};
use cidr_support::alloc::{AllocError, Global};

/// Whether a rule decides no packet.
#[inline]
fn is_shadowed<A: FieldValue>(
    alloc: Global,
    rules: &[Rule<A>],
    i: usize,
    budget: &mut u64,
) -> Result<bool, RulesError> {
    let earlier = first_rules(rules, i);
    let none = first_rules(rules, 0);
    let packet = free_packet(alloc, &rules[i].region, earlier, none, budget)?;
    match packet {
        Some(_) => Ok(false),
        None => Ok(true),
    }
}

/// The indices of the rules that decide no packet, counted from 0 and ascending: earlier rules have all packets of such a
/// rule, or it has none.
///
/// For each rule it looks at parts of its region, and cuts them by the earlier rules that meet them: of n rules at most
/// n (2n + 1)^5 parts, each beside n rules. Where it has looked at `limit` parts and
/// more are left, it returns `TooManyParts`. Beside the answer it keeps the regions of n rules, and 10 parts for each that was
/// looked at.
///
/// ```
/// # use cidr::*;
/// # use cidr_rules::*;
/// # use cidr_support::alloc::Global;
/// let traffic = Traffic::Ports(Transport::Tcp, Range { first: 0, last: 65535 }, Range { first: 443, last: 443 });
/// let any: Ipv4Cidr = "0.0.0.0/0".parse()?;
/// let entry = Entry { action: Action::Permit, source: "10.0.0.0/8".parse()?, destination: any, traffic };
/// let other = Entry { action: Action::Deny, source: any, destination: any, traffic: Traffic::Any };
/// let rules = [entry.rule(), other.rule(), entry.rule()];
/// assert_eq!(format!("{:?}", shadowed(Global, &rules, 1_000_000)?), "[2]");
/// # Ok::<(), Box<dyn std::error::Error>>(())
/// ```
///
/// # Errors
///
/// `RulesError`, which tells what is wrong.
pub fn shadowed<A: FieldValue>(
    alloc: Global,
    rules: &[Rule<A>],
    limit: u64,
) -> Result<Vec<usize>, RulesError> {
    let mut budget = limit;
    let mut out = Vec::new(alloc);
    for i in 0..rules.len() {
        let dead = is_shadowed(alloc, rules, i, &mut budget)?;
        if dead {
            out.push(i)?;
        }
    }
    Ok(out)
}

/// The rules that decide a packet, in their order. They permit the same packets, and each decides one of them.
///
/// It takes the time of [`shadowed`], and returns `TooManyParts` as that does.
///
/// ```
/// # use cidr::*;
/// # use cidr_rules::*;
/// # use cidr_support::alloc::Global;
/// let traffic = Traffic::Ports(Transport::Tcp, Range { first: 0, last: 65535 }, Range { first: 443, last: 443 });
/// let any: Ipv4Cidr = "0.0.0.0/0".parse()?;
/// let entry = Entry { action: Action::Permit, source: "10.0.0.0/8".parse()?, destination: any, traffic };
/// let other = Entry { action: Action::Deny, source: any, destination: any, traffic: Traffic::Any };
/// let rules = [entry.rule(), other.rule(), entry.rule()];
/// assert_eq!(pruned(Global, &rules, 1_000_000)?.len(), 2);
/// # Ok::<(), Box<dyn std::error::Error>>(())
/// ```
///
/// # Errors
///
/// `RulesError`, which tells what is wrong.
pub fn pruned<A: FieldValue>(
    alloc: Global,
    rules: &[Rule<A>],
    limit: u64,
) -> Result<Vec<Rule<A>>, RulesError> {
    let mut budget = limit;
    let mut out = Vec::new(alloc);
    for i in 0..rules.len() {
        let dead = is_shadowed(alloc, rules, i, &mut budget)?;
        if !dead {
            out.push(rules[i])?;
        }
    }
    Ok(out)
}

/// The indices of the rules that may go, each alone, counted from 0 and ascending: without such a rule the same packets are
/// permitted. Two of them together may not be allowed to go, as where two rules are the same.
///
/// For each rule it looks at what it has in common with each rule of the other action, as [`differing_packet`]
/// does: at most n² (4n + 1)^5 parts of n rules. Where it has looked at `limit` parts and more are left, it returns
/// `TooManyParts`. Beside the answer it keeps a copy of the rules, the regions of 2n rules, and 10 parts for each that was looked
/// at.
///
/// [`differing_packet`]: crate::differing_packet
///
/// ```
/// # use cidr::*;
/// # use cidr_rules::*;
/// # use cidr_support::alloc::Global;
/// let traffic = Traffic::Ports(Transport::Tcp, Range { first: 0, last: 65535 }, Range { first: 443, last: 443 });
/// let any: Ipv4Cidr = "0.0.0.0/0".parse()?;
/// let entry = Entry { action: Action::Permit, source: "10.0.0.0/8".parse()?, destination: any, traffic };
/// let other = Entry { action: Action::Deny, source: any, destination: any, traffic: Traffic::Any };
/// let rules = [entry.rule(), other.rule(), entry.rule()];
/// assert_eq!(format!("{:?}", redundant(Global, &rules, 1_000_000)?), "[1, 2]");
/// # Ok::<(), Box<dyn std::error::Error>>(())
/// ```
///
/// # Errors
///
/// `RulesError`, which tells what is wrong.
pub fn redundant<A: FieldValue>(
    alloc: Global,
    rules: &[Rule<A>],
    limit: u64,
) -> Result<Vec<usize>, RulesError> {
    let mut budget = limit;
    let mut out = Vec::new(alloc);
    let mut rest = behind_first(alloc, rules)?;
    for i in 0..rules.len() {
        let free = is_redundant(alloc, rules, i, &rest, &mut budget)?;
        put_back(&mut rest, rules, i);
        if free {
            out.push(i)?;
        }
    }
    Ok(out)
}

/// Whether the same packets are permitted without a rule, by the list without it.
#[inline]
fn is_redundant<A: FieldValue>(
    alloc: Global,
    rules: &[Rule<A>],
    i: usize,
    rest: &[Rule<A>],
    budget: &mut u64,
) -> Result<bool, RulesError> {
    let packet = packet_of_rule(alloc, rules, i, rest, budget)?;
    match packet {
        Some(_) => Ok(false),
        None => Ok(true),
    }
}

/// From the list without one rule to the list without the next.
#[inline]
fn put_back<A: FieldValue>(rest: &mut Vec<Rule<A>>, rules: &[Rule<A>], i: usize) {
    if i + 1 < rules.len() {
        rest[i] = rules[i];
    }
}

/// The rules behind the first.
#[inline]
fn behind_first<A: FieldValue>(alloc: Global, rules: &[Rule<A>]) -> Result<Vec<Rule<A>>, AllocError> {
    let mut rest = Vec::new(alloc);
    for i in 1..rules.len() {
        rest.push(rules[i])?;
    }
    Ok(rest)
}
