//! Operations on compact bytes, and on networks that agree.

use crate::answer::Answer;
use crate::line_error::{LineError, Outcome};
use crate::tokens::{Kind, Tokens};
use cidr::{AnyIpCidr, IpCidr, IpInet, Ipv4Cidr, Ipv4Inet, Ipv6Cidr, Ipv6Inet};

mod agreement;

/// Answers the operation of this section that has this name.
pub fn answer(section: &str, name: &str, tokens: &mut Tokens<'_>, answer: &mut Answer) -> Outcome {
    let kind = tokens.kind()?;
    match section {
        "compact" => match name {
            "to" => network_to(kind, tokens, answer),
            "from" => network_from(kind, tokens, answer),
            _ => Err(LineError::Malformed),
        },
        "hostcompact" => match name {
            "to" => host_to(kind, tokens, answer),
            "from" => host_from(kind, tokens, answer),
            _ => Err(LineError::Malformed),
        },
        _ => agreement::answer(kind, name, tokens, answer),
    }
}

fn network_to(kind: Kind, tokens: &mut Tokens<'_>, answer: &mut Answer) -> Outcome {
    match kind {
        Kind::V4 => to(&tokens.value::<Ipv4Cidr>()?.to_compact(), answer),
        Kind::V6 => to(&tokens.value::<Ipv6Cidr>()?.to_compact(), answer),
        Kind::Ip => to(&tokens.value::<IpCidr>()?.to_compact(), answer),
        Kind::Any => to(&tokens.value::<AnyIpCidr>()?.to_compact(), answer),
    }
}

fn network_from(kind: Kind, tokens: &mut Tokens<'_>, answer: &mut Answer) -> Outcome {
    let bytes = tokens.bytes()?;
    match kind {
        Kind::V4 => answer.value(&Ipv4Cidr::from_compact(&bytes)),
        Kind::V6 => answer.value(&Ipv6Cidr::from_compact(&bytes)),
        Kind::Ip => answer.value(&IpCidr::from_compact(&bytes)),
        Kind::Any => answer.value(&AnyIpCidr::from_compact(&bytes)),
    }
}

fn host_to(kind: Kind, tokens: &mut Tokens<'_>, answer: &mut Answer) -> Outcome {
    match kind {
        Kind::V4 => to(&tokens.value::<Ipv4Inet>()?.to_compact(), answer),
        Kind::V6 => to(&tokens.value::<Ipv6Inet>()?.to_compact(), answer),
        Kind::Ip => to(&tokens.value::<IpInet>()?.to_compact(), answer),
        Kind::Any => Err(LineError::Malformed),
    }
}

fn host_from(kind: Kind, tokens: &mut Tokens<'_>, answer: &mut Answer) -> Outcome {
    let bytes = tokens.bytes()?;
    match kind {
        Kind::V4 => answer.value(&Ipv4Inet::from_compact(&bytes)),
        Kind::V6 => answer.value(&Ipv6Inet::from_compact(&bytes)),
        Kind::Ip => answer.value(&IpInet::from_compact(&bytes)),
        Kind::Any => Err(LineError::Malformed),
    }
}

fn to(bytes: &[u8], answer: &mut Answer) -> Outcome {
    answer.bytes(bytes)
}
