//! Steps of hosts within their networks.

use crate::answer::Answer;
use crate::hosts::Host;
use crate::line_error::{LineError, Outcome};
use crate::tokens::Tokens;
use crate::values::Value;
use cidr::{Inet, Ipv4Inet};

/// The steps to a neighbour.
pub fn answer_single<H: Inet + Value>(
    name: &str,
    tokens: &mut Tokens<'_>,
    answer: &mut Answer,
) -> Outcome {
    let mut host = tokens.value::<H>()?;
    match name {
        "next" => answer.value(&host.next()),
        "previous" => answer.value(&host.previous()),
        _ => {
            let wrapped = if name == "increment" {
                host.increment()
            } else {
                host.decrement()
            };
            answer.value(&(wrapped, host))
        }
    }
}

/// The steps by a number.
pub fn answer_many<H: Inet + Host>(
    name: &str,
    tokens: &mut Tokens<'_>,
    answer: &mut Answer,
) -> Outcome {
    let host = tokens.value::<H>()?;
    let step = tokens.number::<u128>()?;
    match name {
        "overflowing_add" => answer.value(&host.overflowing_add(step)),
        "overflowing_sub" => answer.value(&host.overflowing_sub(step)),
        "add" => within(host.add(step), answer),
        _ => within(host.sub(step), answer),
    }
}

/// The steps by a number of 32 bits; `+` and `-` out of the network are none of the format.
pub fn answer_narrow(name: &str, tokens: &mut Tokens<'_>, answer: &mut Answer) -> Outcome {
    let host = tokens.value::<Ipv4Inet>()?;
    let step = tokens.number::<u32>()?;
    match name {
        "overflowing_add_u32" => answer.value(&host.overflowing_add_u32(step)),
        "overflowing_sub_u32" => answer.value(&host.overflowing_sub_u32(step)),
        "add_u32" => {
            if host.overflowing_add_u32(step).1 {
                return Err(LineError::Malformed);
            }
            answer.value(&(host + step))
        }
        _ => {
            if host.overflowing_sub_u32(step).1 {
                return Err(LineError::Malformed);
            }
            answer.value(&(host - step))
        }
    }
}

/// Answers the stepped host; a step that leaves the network is none of the format.
fn within<H: Value>(stepped: Option<H>, answer: &mut Answer) -> Outcome {
    match stepped {
        Some(host) => answer.value(&host),
        None => Err(LineError::Malformed),
    }
}
