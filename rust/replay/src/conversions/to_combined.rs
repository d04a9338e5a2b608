//! Conversions to the types of either family.

use crate::answer::Answer;
use crate::conversions::converted;
use crate::line_error::{LineError, Outcome};
use crate::pairs::pair;
use crate::tokens::Tokens;
use cidr::{AnyIpCidr, InetPair, IpCidr, IpInet, IpInetPair};
use std::str::FromStr;

/// To the pairs of either family.
pub fn from_pair<P: InetPair>(to: &str, tokens: &mut Tokens<'_>, answer: &mut Answer) -> Outcome
where
    IpInetPair: From<P>,
{
    match to {
        "pair.ip" => answer.value(&IpInetPair::from(pair::<P>(tokens)?)),
        _ => Err(LineError::Malformed),
    }
}

/// To the networks of either family.
pub fn to_network<X: FromStr>(to: &str, tokens: &mut Tokens<'_>, answer: &mut Answer) -> Outcome
where
    IpCidr: From<X>,
    AnyIpCidr: From<X>,
{
    match to {
        "cidr.ip" => converted::<X, IpCidr>(tokens, answer),
        "cidr.any" => converted::<X, AnyIpCidr>(tokens, answer),
        _ => Err(LineError::Malformed),
    }
}

/// To the hosts of either family.
pub fn to_host<X: FromStr>(to: &str, tokens: &mut Tokens<'_>, answer: &mut Answer) -> Outcome
where
    IpInet: From<X>,
{
    match to {
        "inet.ip" => converted::<X, IpInet>(tokens, answer),
        _ => Err(LineError::Malformed),
    }
}
