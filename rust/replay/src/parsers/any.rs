//! Operations on the parsers of networks of which one holds all addresses.

use crate::answer::Answer;
use crate::line_error::{LineError, Outcome};
use crate::parsers::address_parsers::AddressParser;
use crate::parsers::host_parsers::HostParser;
use crate::parsers::loose;
use crate::tokens::Tokens;
use cidr::parsers::{
    parse_any_cidr, parse_any_cidr_full, parse_any_cidr_full_ignore_hostbits,
    parse_any_cidr_ignore_hostbits,
};
use cidr::{IpAddr, IpCidr};

/// Answers the operation on such parsers that has this name.
pub fn answer(name: &str, tokens: &mut Tokens<'_>, answer: &mut Answer) -> Outcome {
    match name {
        "parse_any_cidr" | "parse_any_cidr_ignore_hostbits" => answer_plain(name, tokens, answer),
        "parse_any_cidr_full" | "parse_any_cidr_full_ignore_hostbits" => {
            answer_full(name, tokens, answer)
        }
        "parse_short_any_ip_cidr" => loose::answer_any(tokens, answer),
        _ => Err(LineError::Malformed),
    }
}

/// The operations with a parser of addresses.
fn answer_plain(name: &str, tokens: &mut Tokens<'_>, answer: &mut Answer) -> Outcome {
    let parser = AddressParser::named::<IpAddr>(tokens)?;
    let text = tokens.text()?;
    let address = |part: &str| parser.read::<IpAddr>(part);
    answer.value(&match name {
        "parse_any_cidr" => parse_any_cidr(&text, address),
        _ => parse_any_cidr_ignore_hostbits(&text, address),
    })
}

/// The operations with a parser of addresses and one of texts with no slash.
fn answer_full(name: &str, tokens: &mut Tokens<'_>, answer: &mut Answer) -> Outcome {
    let address_parser = AddressParser::named::<IpAddr>(tokens)?;
    let host_parser = HostParser::of_networks::<IpCidr>(tokens)?;
    let text = tokens.text()?;
    let address = |part: &str| address_parser.read::<IpAddr>(part);
    let host = |whole: &str| host_parser.read::<IpCidr>(whole);
    answer.value(&match name {
        "parse_any_cidr_full" => parse_any_cidr_full(&text, address, host),
        _ => parse_any_cidr_full_ignore_hostbits(&text, address, host),
    })
}
