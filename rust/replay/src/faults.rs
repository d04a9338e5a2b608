//! Operations on refusals.

use crate::answer::Answer;
use crate::line_error::{LineError, Outcome};
use crate::tokens::{Kind, Tokens};
use cidr::errors::{InetTupleError, NetworkParseError};
use cidr::{Address, AnyIpCidr, Inet, IpCidr, Ipv4Cidr, Ipv6Cidr};
use std::str::FromStr;

/// Answers the operation that has this name on what refusals are made from, on a type that is told by its addresses.
pub fn answer<A: Address>(name: &str, tokens: &mut Tokens<'_>, answer: &mut Answer) -> Outcome
where
    A::Inet: Inet<Address = A>,
{
    match name {
        "from_address" => from_address::<A>(tokens, answer),
        "from_length" => from_length::<A::Inet>(tokens, answer),
        _ => Err(LineError::Malformed),
    }
}

/// A type and a text that it refuses: the refusal.
fn refusal(tokens: &mut Tokens<'_>) -> Result<NetworkParseError, LineError> {
    match tokens.kind()? {
        Kind::V4 => refusal_of::<Ipv4Cidr>(tokens),
        Kind::V6 => refusal_of::<Ipv6Cidr>(tokens),
        Kind::Ip => refusal_of::<IpCidr>(tokens),
        Kind::Any => refusal_of::<AnyIpCidr>(tokens),
    }
}

fn refusal_of<N: FromStr<Err = NetworkParseError>>(
    tokens: &mut Tokens<'_>,
) -> Result<NetworkParseError, LineError> {
    let text = tokens.text()?;
    match text.parse::<N>() {
        Ok(_) => Err(LineError::Malformed),
        Err(e) => Ok(e),
    }
}

/// Answers whether two refusals are equal.
pub fn equal(tokens: &mut Tokens<'_>, answer: &mut Answer) -> Outcome {
    let one = refusal(tokens)?;
    let other = refusal(tokens)?;
    answer.display(&(one == other))
}

fn from_address<A: Address>(tokens: &mut Tokens<'_>, answer: &mut Answer) -> Outcome {
    let text = tokens.text()?;
    match text.parse::<A>() {
        Ok(_) => Err(LineError::Malformed),
        Err(e) => answer.refusal(&NetworkParseError::from(e)),
    }
}

fn from_length<H: Inet>(tokens: &mut Tokens<'_>, answer: &mut Answer) -> Outcome {
    let address = tokens.value::<H::Address>()?;
    let len = tokens.number::<u8>()?;
    match H::new(address, len) {
        Ok(_) => Err(LineError::Malformed),
        Err(e) => {
            answer.refusal(&NetworkParseError::from(e.clone()))?;
            answer.refusal(&InetTupleError::from(e))
        }
    }
}
