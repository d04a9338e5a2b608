//! Operations on sets of addresses.

use crate::answer::Answer;
use crate::line_error::{LineError, Outcome};
use crate::tokens::Tokens;
use cidr::errors::NetworkParseError;
use cidr::AddrParseError;
use cidr_sets::access::{deciding, permitted, shadowed, Action};
use cidr_sets::{Addressed, NetworkSet, PoolNetwork};
use cidr_table::alloc::Global;
use std::fmt::Debug;
use std::str::FromStr;

mod lists;
pub mod places;

use lists::{rules, set};

/// Whether the operation of this name goes by the index of addresses, which the types of one family have.
pub fn is_by_index(name: &str) -> bool {
    matches!(name, "address_count" | "nth" | "position" | "addresses")
}

/// Answers the operation on sets that has this name and does not go by the index of addresses.
pub fn answer<C>(name: &str, tokens: &mut Tokens<'_>, answer: &mut Answer) -> Outcome
where
    C: Addressed + Copy + Debug + FromStr<Err = NetworkParseError> + PoolNetwork,
    C::Address: Debug + FromStr<Err = AddrParseError>,
{
    match name {
        "from_range" | "ranges" => places::ranges::<C>(name, tokens, answer),
        "run" | "permitted" | "shadowed" | "deciding" => by_rules::<C>(name, tokens, answer),
        _ => one_set::<C>(name, tokens, answer),
    }
}

/// The operations that begin with rules.
fn by_rules<C>(name: &str, tokens: &mut Tokens<'_>, answer: &mut Answer) -> Outcome
where
    C: PoolNetwork + Copy + Debug + FromStr<Err = NetworkParseError>,
{
    let rules = rules::<C>(tokens)?;
    match name {
        "permitted" => answer.shown(&permitted(Global, &rules)?.as_slice()),
        "shadowed" => answer.shown(&shadowed(Global, &rules)?),
        "deciding" => answer.shown(&deciding(Global, &rules, &tokens.value()?)?),
        _ => {
            let mut set = NetworkSet::new(Global);
            let mut lens = Vec::new();
            for rule in &rules {
                match rule.action {
                    Action::Permit => set.insert(rule.network)?,
                    Action::Deny => set.remove(&rule.network)?,
                }
                lens.push(set.len());
            }
            answer.shown(&(lens, set.as_slice()))
        }
    }
}

/// The operations on one set.
fn one_set<C>(name: &str, tokens: &mut Tokens<'_>, answer: &mut Answer) -> Outcome
where
    C: PoolNetwork + Copy + Debug + FromStr<Err = NetworkParseError>,
{
    let set = set::<C>(tokens)?;
    match name {
        "from_networks" => answer.shown(&set.as_slice()),
        "contains" => answer.shown(&set.contains(&tokens.value()?)),
        "overlaps" => answer.shown(&set.overlaps(&tokens.value()?)),
        "complement_in" => answer.shown(&set.complement_in(&tokens.value()?)?.as_slice()),
        "first_free" => answer.shown(&set.first_free(tokens.number()?)),
        "best_free" => answer.shown(&set.best_free(tokens.number()?)),
        _ => two_sets(name, &set, tokens, answer),
    }
}

/// The operations on two sets.
fn two_sets<C>(
    name: &str,
    these: &NetworkSet<C>,
    tokens: &mut Tokens<'_>,
    answer: &mut Answer,
) -> Outcome
where
    C: PoolNetwork + Copy + Debug + FromStr<Err = NetworkParseError>,
{
    let those = &lists::set::<C>(tokens)?;
    match name {
        "union" => answer.shown(&these.union(those)?.as_slice()),
        "intersection" => answer.shown(&these.intersection(those)?.as_slice()),
        "difference" => answer.shown(&these.difference(those)?.as_slice()),
        "symmetric_difference" => answer.shown(&these.symmetric_difference(those)?.as_slice()),
        "is_subset" => answer.shown(&these.is_subset(those)),
        "is_disjoint" => answer.shown(&these.is_disjoint(those)),
        "contains_all" => answer.shown(&these.contains_all(those.as_slice())),
        "eq" => answer.shown(&(these == those)),
        _ => Err(LineError::Malformed),
    }
}
