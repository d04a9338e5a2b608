//! Tokens that are lists of networks or of rules.

use crate::line_error::LineError;
use crate::tokens::{parsed, Tokens};
use cidr::NetworkBits;
use cidr_sets::access::{Action, Rule};
use cidr_sets::NetworkSet;
use cidr_table::alloc::Global;
use std::str::FromStr;

/// A set of the networks of the next token, which stand with commas between them; `-` for none.
pub fn set<C: NetworkBits + Copy + FromStr>(
    tokens: &mut Tokens<'_>,
) -> Result<NetworkSet<C>, LineError> {
    let mut networks = Vec::new();
    for part in tokens.word()?.split(',') {
        if part != "-" {
            networks.push(parsed::<C>(part)?);
        }
    }
    Ok(NetworkSet::from_networks(Global, &networks)?)
}

/// The rules of the next token, with commas between them: `+` and a network that is permitted, `-` and one that is
/// denied; `-` for none.
pub fn rules<C: NetworkBits + Copy + FromStr>(
    tokens: &mut Tokens<'_>,
) -> Result<Vec<Rule<C>>, LineError> {
    let mut rules = Vec::new();
    for part in tokens.word()?.split(',') {
        if part != "-" {
            rules.push(rule(part)?);
        }
    }
    Ok(rules)
}

/// The rule that a sign and a network stand for.
fn rule<C: NetworkBits + Copy + FromStr>(word: &str) -> Result<Rule<C>, LineError> {
    let (action, network) = match word.strip_prefix('+') {
        Some(network) => (Action::Permit, network),
        None => (
            Action::Deny,
            word.strip_prefix('-').ok_or(LineError::Malformed)?,
        ),
    };
    let network = parsed(network)?;
    Ok(Rule { action, network })
}
