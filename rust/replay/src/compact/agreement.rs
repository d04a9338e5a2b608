//! Operations on networks that agree.

use crate::answer::Answer;
use crate::line_error::{LineError, Outcome};
use crate::networks::Network;
use crate::tokens::{Kind, Tokens};
use cidr::canon::{agree, Canonical};
use cidr::errors::NetworkParseError;
use cidr::{AnyIpCidr, IpCidr, Ipv4Cidr, Ipv6Cidr};

/// Answers the operation on networks that agree that has this name.
pub fn answer(kind: Kind, name: &str, tokens: &mut Tokens<'_>, answer: &mut Answer) -> Outcome {
    match kind {
        Kind::V4 => answer_each::<Ipv4Cidr>(name, tokens, answer),
        Kind::V6 => answer_each::<Ipv6Cidr>(name, tokens, answer),
        Kind::Ip => answer_each::<IpCidr>(name, tokens, answer),
        Kind::Any => answer_each::<AnyIpCidr>(name, tokens, answer),
    }
}

/// The operations of every type of networks.
fn answer_each<N: Canonical + Network>(
    name: &str,
    tokens: &mut Tokens<'_>,
    answer: &mut Answer,
) -> Outcome {
    match name {
        "" => {
            let one = tokens.value::<N>()?;
            answer.value(&agree(&one, &tokens.value()?))
        }
        "texts" => texts::<N>(tokens, answer),
        _ => Err(LineError::Malformed),
    }
}

/// Two texts, of which the first error is told.
fn texts<N: Canonical + Network>(tokens: &mut Tokens<'_>, answer: &mut Answer) -> Outcome {
    let one = tokens.text()?;
    let other = tokens.text()?;
    answer.value(&texts_agree::<N>(&one, &other))
}

/// Whether the networks that two texts are read as agree.
fn texts_agree<N: Canonical + Network>(one: &str, other: &str) -> Result<bool, NetworkParseError> {
    let one = one.parse::<N>()?;
    let other = other.parse::<N>()?;
    Ok(agree(&one, &other))
}
