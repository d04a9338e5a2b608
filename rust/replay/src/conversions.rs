//! Conversions between types.

use crate::answer::Answer;
use crate::line_error::{LineError, Outcome};
use crate::tokens::Tokens;
use crate::values::Value;
use cidr::{
    AnyIpCidr, IpAddr, IpCidr, Ipv4Addr, Ipv4Cidr, Ipv4Inet, Ipv4InetPair, Ipv6Addr, Ipv6Cidr,
    Ipv6Inet, Ipv6InetPair,
};
use std::str::FromStr;

mod to_combined;

use to_combined::{from_pair, to_host, to_network};

/// Answers a conversion: the two types stand in the line before the value.
pub fn answer(tokens: &mut Tokens<'_>, answer: &mut Answer) -> Outcome {
    let from = tokens.word()?;
    let to = tokens.word()?;
    match from {
        "u32" if to == "addr.v4" => answer.value(&Ipv4Addr::from(tokens.number::<u32>()?)),
        "u128" if to == "addr.v6" => answer.value(&Ipv6Addr::from(tokens.number::<u128>()?)),
        "octets" => from_octets(to, tokens, answer),
        "segments" if to == "addr.v6" => answer.value(&Ipv6Addr::from(tokens.groups()?)),
        "addr.v4" => from_ipv4(to, tokens, answer),
        "addr.v6" => from_ipv6(to, tokens, answer),
        "addr.ip" => from_ip(to, tokens, answer),
        "cidr.v4" => to_network::<Ipv4Cidr>(to, tokens, answer),
        "cidr.v6" => to_network::<Ipv6Cidr>(to, tokens, answer),
        "cidr.ip" if to == "cidr.any" => converted::<IpCidr, AnyIpCidr>(tokens, answer),
        "cidr.any" if to == "option" => converted::<AnyIpCidr, Option<IpCidr>>(tokens, answer),
        "option" if to == "cidr.any" => answer.value(&AnyIpCidr::from(tokens.option::<IpCidr>()?)),
        "inet.v4" => to_host::<Ipv4Inet>(to, tokens, answer),
        "inet.v6" => to_host::<Ipv6Inet>(to, tokens, answer),
        "pair.v4" => from_pair::<Ipv4InetPair>(to, tokens, answer),
        "pair.v6" => from_pair::<Ipv6InetPair>(to, tokens, answer),
        _ => Err(LineError::Malformed),
    }
}

fn from_octets(to: &str, tokens: &mut Tokens<'_>, answer: &mut Answer) -> Outcome {
    match to {
        "addr.v4" => answer.value(&Ipv4Addr::from(tokens.octets::<4>()?)),
        "addr.v6" => answer.value(&Ipv6Addr::from(tokens.octets::<16>()?)),
        _ => Err(LineError::Malformed),
    }
}

fn from_ipv4(to: &str, tokens: &mut Tokens<'_>, answer: &mut Answer) -> Outcome {
    match to {
        "addr.ip" => converted::<Ipv4Addr, IpAddr>(tokens, answer),
        "cidr.v4" => converted::<Ipv4Addr, Ipv4Cidr>(tokens, answer),
        "inet.v4" => converted::<Ipv4Addr, Ipv4Inet>(tokens, answer),
        "inet.ip" => to_host::<Ipv4Addr>(to, tokens, answer),
        _ => to_network::<Ipv4Addr>(to, tokens, answer),
    }
}

fn from_ipv6(to: &str, tokens: &mut Tokens<'_>, answer: &mut Answer) -> Outcome {
    match to {
        "addr.ip" => converted::<Ipv6Addr, IpAddr>(tokens, answer),
        "cidr.v6" => converted::<Ipv6Addr, Ipv6Cidr>(tokens, answer),
        "inet.v6" => converted::<Ipv6Addr, Ipv6Inet>(tokens, answer),
        "inet.ip" => to_host::<Ipv6Addr>(to, tokens, answer),
        _ => to_network::<Ipv6Addr>(to, tokens, answer),
    }
}

fn from_ip(to: &str, tokens: &mut Tokens<'_>, answer: &mut Answer) -> Outcome {
    match to {
        "inet.ip" => to_host::<IpAddr>(to, tokens, answer),
        _ => to_network::<IpAddr>(to, tokens, answer),
    }
}

/// Reads a value of one type and answers it as another, by `From`.
pub fn converted<X: FromStr, Y: From<X> + Value>(
    tokens: &mut Tokens<'_>,
    answer: &mut Answer,
) -> Outcome {
    answer.value(&Y::from(tokens.value::<X>()?))
}
