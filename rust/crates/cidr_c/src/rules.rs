//! Access lists.

use cidr_support::vec::Vec;
use crate::codes::{NO_MEMORY, NO_VALUE};
use crate::finding::{put_list, yes_or_no};
use crate::sets::deliver;
use crate::values::{CValue, value_network};
use cidr::AnyIpCidr;
use cidr_sets::access::{Action, Rule, deciding, permitted, shadowed};
use cidr_support::alloc::Global;

/// A rule of an access list.
#[repr(C)]
#[derive(Clone, Copy)]
pub struct CRule {
    /// The network.
    pub network: CValue,
    /// 1 permits its addresses, and any other number denies them.
    pub action: u32,
}

/// The rules, or the number of the error.
fn rules_of(alloc: Global, rules: &[CRule]) -> Result<Vec<Rule<AnyIpCidr>>, u32> {
    let Ok(mut out) = Vec::with_capacity(alloc, rules.len()) else {
        return Err(NO_MEMORY);
    };
    for rule in rules {
        let Some(network) = value_network(&rule.network) else {
            return Err(NO_VALUE);
        };
        let action = action_of(rule);
        let Ok(()) = out.push(Rule { action, network }) else {
            return Err(NO_MEMORY);
        };
    }
    Ok(out)
}

/// What a rule does.
#[inline]
fn action_of(rule: &CRule) -> Action {
    if rule.action == 1 {
        Action::Permit
    } else {
        Action::Deny
    }
}

/// 1 where all values are networks and the access list permits the address, and 0 where not. A larger network is taken as a
/// whole: a rule for a part of it doesn't count. It goes through the rules twice at most, and allocates nothing.
pub fn pcidr_permits(rules: &[CRule], address: &CValue) -> u32 {
    let Some(address) = value_network(address) else {
        return 0;
    };
    if are_rules(rules) {
        yes_or_no(is_permitted(rules, &address))
    } else {
        0
    }
}

/// Whether each rule is for a network.
#[inline]
fn are_rules(rules: &[CRule]) -> bool {
    rules
        .iter()
        .all(|rule| value_network(&rule.network).is_some())
}

/// Whether the first rule whose network contains the address permits it.
#[inline]
fn is_permitted(rules: &[CRule], address: &AnyIpCidr) -> bool {
    for rule in rules {
        if is_for(rule, address) {
            return does_permit(rule);
        }
    }
    false
}

/// Whether the network of a rule contains the address.
#[inline]
fn is_for(rule: &CRule, address: &AnyIpCidr) -> bool {
    match value_network(&rule.network) {
        Some(network) => network.contains_cidr(address),
        None => false,
    }
}

/// Whether a rule permits the addresses that it decides.
#[inline]
fn does_permit(rule: &CRule) -> bool {
    match action_of(rule) {
        Action::Permit => true,
        Action::Deny => false,
    }
}

/// The addresses that an access list permits, as a set in a room, of which `count` becomes the number of networks; where
/// there is too little room, it becomes how many are needed.
#[inline]
pub fn pcidr_permitted(
    alloc: Global,
    rules: &[CRule],
    out: &mut [CValue],
    count: &mut usize,
) -> u32 {
    match rules_of(alloc, rules) {
        Ok(rules) => deliver(permitted(alloc, rules.as_slice()), out, count),
        Err(code) => code,
    }
}

/// The indexes of the rules that no address reaches, since earlier rules decide all addresses of their networks: the first
/// `count` of `out`, ascending; where there is too little room, `count` becomes how many they are.
pub fn pcidr_shadowed(
    alloc: Global,
    rules: &[CRule],
    out: &mut [usize],
    count: &mut usize,
) -> u32 {
    let rules = match rules_of(alloc, rules) {
        Ok(rules) => rules,
        Err(code) => return code,
    };
    match shadowed(alloc, rules.as_slice()) {
        Ok(indexes) => put_list(indexes.as_slice(), out, count),
        Err(_) => NO_MEMORY,
    }
}

/// The indexes of the rules that decide the addresses of a network, each the first rule for some of them: the first `count`
/// of `out`, ascending; where there is too little room, `count` becomes how many they are.
pub fn pcidr_deciding(
    alloc: Global,
    rules: &[CRule],
    network: &CValue,
    out: &mut [usize],
    count: &mut usize,
) -> u32 {
    let rules = match rules_of(alloc, rules) {
        Ok(rules) => rules,
        Err(code) => return code,
    };
    let Some(network) = value_network(network) else {
        return NO_VALUE;
    };
    match deciding(alloc, rules.as_slice(), &network) {
        Ok(indexes) => put_list(indexes.as_slice(), out, count),
        Err(_) => NO_MEMORY,
    }
}
