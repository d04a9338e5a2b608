//! Operations on networks.

use crate::answer::Answer;
use crate::line_error::{LineError, Outcome};
use crate::queries;
use crate::queries::HasTexts;
use crate::tokens::Tokens;
use crate::values::Value;
use cidr::errors::NetworkParseError;
use cidr::{Address, AnyIpCidr, Cidr, IpCidr, Ipv4Cidr, Ipv6Cidr};
use std::str::FromStr;

pub mod any;

/// What all networks have.
pub trait Network: Copy + Ord + FromStr<Err = NetworkParseError> + HasTexts + Value {
    fn contains_cidr(&self, other: &Self) -> bool;

    /// Answers an operation of this type alone.
    fn answer_own(name: &str, tokens: &mut Tokens<'_>, answer: &mut Answer) -> Outcome;
}

impl Network for Ipv4Cidr {
    fn contains_cidr(&self, other: &Ipv4Cidr) -> bool {
        Ipv4Cidr::contains_cidr(self, other)
    }

    fn answer_own(name: &str, tokens: &mut Tokens<'_>, answer: &mut Answer) -> Outcome {
        match name {
            "first_address_ref" => answer.value(tokens.value::<Ipv4Cidr>()?.first_address_ref()),
            _ => Err(LineError::Malformed),
        }
    }
}

impl Network for Ipv6Cidr {
    fn contains_cidr(&self, other: &Ipv6Cidr) -> bool {
        Ipv6Cidr::contains_cidr(self, other)
    }

    fn answer_own(name: &str, tokens: &mut Tokens<'_>, answer: &mut Answer) -> Outcome {
        match name {
            "first_address_ref" => answer.value(tokens.value::<Ipv6Cidr>()?.first_address_ref()),
            _ => Err(LineError::Malformed),
        }
    }
}

impl Network for IpCidr {
    fn contains_cidr(&self, other: &IpCidr) -> bool {
        IpCidr::contains_cidr(self, other)
    }

    fn answer_own(name: &str, tokens: &mut Tokens<'_>, answer: &mut Answer) -> Outcome {
        match name {
            "is" => {
                let network = tokens.value::<IpCidr>()?;
                answer.value(&(network.is_ipv4(), network.is_ipv6()))
            }
            _ => Err(LineError::Malformed),
        }
    }
}

impl Network for AnyIpCidr {
    fn contains_cidr(&self, other: &AnyIpCidr) -> bool {
        AnyIpCidr::contains_cidr(self, other)
    }

    fn answer_own(name: &str, tokens: &mut Tokens<'_>, answer: &mut Answer) -> Outcome {
        any::answer_own(name, tokens, answer)
    }
}

/// Answers the operation that has this name on networks that always have a family, which are told by their addresses.
pub fn answer<A: Address + Value>(
    name: &str,
    tokens: &mut Tokens<'_>,
    answer: &mut Answer,
) -> Outcome
where
    A::Cidr: Cidr<Address = A> + Network,
    A::Inet: Value,
{
    match name {
        "new" => {
            let address = tokens.value::<A>()?;
            answer.value(&A::Cidr::new(address, tokens.number()?))
        }
        "new_host" => answer.value(&A::Cidr::new_host(tokens.value::<A>()?)),
        "contains" => {
            let network = tokens.value::<A::Cidr>()?;
            answer.value(&network.contains(&tokens.value::<A>()?))
        }
        "show" => show::<A>(tokens, answer),
        "ends" => {
            let network = tokens.value::<A::Cidr>()?;
            answer.value(&(network.first(), network.last()))
        }
        _ => answer_each::<A::Cidr>(name, tokens, answer),
    }
}

/// The operations of every type.
fn answer_each<N: Network>(name: &str, tokens: &mut Tokens<'_>, answer: &mut Answer) -> Outcome {
    match name {
        "contains_cidr" => {
            let network = tokens.value::<N>()?;
            answer.value(&network.contains_cidr(&tokens.value::<N>()?))
        }
        "parse" => queries::parse::<N>(tokens, answer),
        "cmp" => queries::compare::<N>(tokens, answer),
        "text" => tokens.value::<N>()?.texts(answer),
        _ => N::answer_own(name, tokens, answer),
    }
}

/// The ends, the mask, the length, the family, and whether the length is full.
fn show<A: Address + Value>(tokens: &mut Tokens<'_>, answer: &mut Answer) -> Outcome
where
    A::Cidr: Cidr<Address = A>,
{
    let network = tokens.value::<A::Cidr>()?;
    let ends = (network.first_address(), network.last_address());
    let length = (
        network.network_length(),
        (network.family(), network.is_host_address()),
    );
    answer.value(&(ends, (network.mask(), length)))
}
