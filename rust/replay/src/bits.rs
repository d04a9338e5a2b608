//! Operations on networks and hosts as strings of bits.

use crate::answer::Answer;
use crate::line_error::{LineError, Outcome};
use crate::tokens::Tokens;
use crate::values::Value;
use cidr::errors::NetworkParseError;
use cidr::{AnyIpCidr, BitString, Ipv4Cidr, Ipv4Inet, Ipv6Cidr, Ipv6Inet};
use std::str::FromStr;

/// The strings of bits of which there are operations.
pub trait Bits: BitString + FromStr<Err = NetworkParseError> + Value {}

impl Bits for Ipv4Cidr {}

impl Bits for Ipv6Cidr {}

impl Bits for AnyIpCidr {}

impl Bits for Ipv4Inet {}

impl Bits for Ipv6Inet {}

/// Answers the operation on strings of bits that has this name.
pub fn answer<B: Bits>(name: &str, tokens: &mut Tokens<'_>, answer: &mut Answer) -> Outcome {
    match name {
        "len" => answer.value(&tokens.value::<B>()?.len()),
        "get" => {
            let bits = tokens.value::<B>()?;
            let i = index(&bits, tokens)?;
            answer.value(&bits.get(i))
        }
        "set" => set::<B>(tokens, answer),
        "flip" => flip::<B>(tokens, answer),
        "clip" => {
            let mut bits = tokens.value::<B>()?;
            bits.clip(tokens.number()?);
            answer.value(&bits)
        }
        "append" => append::<B>(tokens, answer),
        "null" => answer.value(&B::null()),
        "shared_prefix_len" => {
            let bits = tokens.value::<B>()?;
            answer.value(&bits.shared_prefix_len(&tokens.value()?))
        }
        _ => Err(LineError::Malformed),
    }
}

/// Which bit of the string is meant; one that it does not have is none of the format.
fn index<B: Bits>(bits: &B, tokens: &mut Tokens<'_>) -> Result<usize, LineError> {
    let i = tokens.number::<usize>()?;
    if i < bits.len() {
        Ok(i)
    } else {
        Err(LineError::Malformed)
    }
}

fn set<B: Bits>(tokens: &mut Tokens<'_>, answer: &mut Answer) -> Outcome {
    let mut bits = tokens.value::<B>()?;
    let i = index(&bits, tokens)?;
    bits.set(i, tokens.truth()?);
    answer.value(&bits)
}

fn flip<B: Bits>(tokens: &mut Tokens<'_>, answer: &mut Answer) -> Outcome {
    let mut bits = tokens.value::<B>()?;
    let i = index(&bits, tokens)?;
    bits.flip(i);
    answer.value(&bits)
}

/// Appends a bit; to a full string is none of the format.
fn append<B: Bits>(tokens: &mut Tokens<'_>, answer: &mut Answer) -> Outcome {
    let mut bits = tokens.value::<B>()?;
    let bit = tokens.truth()?;
    if bits.room() == 0 {
        return Err(LineError::Malformed);
    }
    bits.append(bit);
    answer.value(&bits)
}
