//! Operations on networks of which one holds all addresses: that one has no ends and no family.

use crate::answer::Answer;
use crate::line_error::{LineError, Outcome};
use crate::networks::answer_each;
use crate::tokens::Tokens;
use cidr::{AnyIpCidr, IpAddr};

/// Answers the operation on such networks that has this name.
pub fn answer(name: &str, tokens: &mut Tokens<'_>, answer: &mut Answer) -> Outcome {
    answer_each::<AnyIpCidr>(name, tokens, answer)
}

/// The operations that take or give addresses, or none where the network has no family.
pub fn answer_own(name: &str, tokens: &mut Tokens<'_>, answer: &mut Answer) -> Outcome {
    match name {
        "show" => show(tokens, answer),
        "ends" => {
            let network = tokens.value::<AnyIpCidr>()?;
            answer.value(&(network.first(), network.last()))
        }
        "is" => {
            let network = tokens.value::<AnyIpCidr>()?;
            answer.value(&(network.is_any(), (network.is_ipv4(), network.is_ipv6())))
        }
        "new" => {
            let address = tokens.value::<IpAddr>()?;
            answer.value(&AnyIpCidr::new(address, tokens.number()?))
        }
        "new_host" => answer.value(&AnyIpCidr::new_host(tokens.value::<IpAddr>()?)),
        "contains" => {
            let network = tokens.value::<AnyIpCidr>()?;
            answer.value(&network.contains(&tokens.value::<IpAddr>()?))
        }
        _ => Err(LineError::Malformed),
    }
}

fn show(tokens: &mut Tokens<'_>, answer: &mut Answer) -> Outcome {
    let network = tokens.value::<AnyIpCidr>()?;
    let ends = (network.first_address(), network.last_address());
    let length = (
        network.network_length(),
        (network.family(), network.is_host_address()),
    );
    answer.value(&(ends, (network.mask(), length)))
}
