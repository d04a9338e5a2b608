//! Operations on the readers of loose and short texts, which take a text alone.

use crate::answer::Answer;
use crate::line_error::{LineError, Outcome};
use crate::parsers::ShortParsers;
use crate::tokens::Tokens;
use cidr::parsers::{
    inet_addr, parse_loose_ip, parse_loose_ipv4, parse_short_any_ip_cidr,
    parse_short_ip_address_as_cidr, parse_short_ip_cidr, parse_short_ipv4_address_as_cidr,
    parse_short_ipv4_cidr,
};
use cidr::{IpAddr, Ipv4Addr, Ipv6Addr};

impl ShortParsers for Ipv4Addr {
    fn answer_short(name: &str, tokens: &mut Tokens<'_>, answer: &mut Answer) -> Outcome {
        let text = tokens.text()?;
        match name {
            "inet_addr" => answer.value(&inet_addr(&text)),
            "parse_loose_ipv4" => answer.value(&parse_loose_ipv4(&text)),
            "parse_short_ipv4_cidr" => answer.value(&parse_short_ipv4_cidr(&text)),
            "parse_short_ipv4_address_as_cidr" => {
                answer.value(&parse_short_ipv4_address_as_cidr(&text))
            }
            _ => Err(LineError::Malformed),
        }
    }
}

/// There are none for IPv6 alone.
impl ShortParsers for Ipv6Addr {
    fn answer_short(_name: &str, _tokens: &mut Tokens<'_>, _answer: &mut Answer) -> Outcome {
        Err(LineError::Malformed)
    }
}

impl ShortParsers for IpAddr {
    fn answer_short(name: &str, tokens: &mut Tokens<'_>, answer: &mut Answer) -> Outcome {
        let text = tokens.text()?;
        match name {
            "parse_loose_ip" => answer.value(&parse_loose_ip(&text)),
            "parse_short_ip_cidr" => answer.value(&parse_short_ip_cidr(&text)),
            "parse_short_ip_address_as_cidr" => {
                answer.value(&parse_short_ip_address_as_cidr(&text))
            }
            _ => Err(LineError::Malformed),
        }
    }
}

/// Answers the operation on short texts of networks, or of all addresses.
pub fn answer_any(tokens: &mut Tokens<'_>, answer: &mut Answer) -> Outcome {
    let text = tokens.text()?;
    answer.value(&parse_short_any_ip_cidr(&text))
}
