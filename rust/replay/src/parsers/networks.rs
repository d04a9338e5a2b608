//! Operations on the parsers of networks.

use crate::answer::Answer;
use crate::line_error::Outcome;
use crate::parsers::address_parsers::AddressParser;
use crate::parsers::host_parsers::HostParser;
use crate::tokens::Tokens;
use crate::values::Value;
use cidr::parsers::{
    parse_cidr, parse_cidr_full, parse_cidr_full_ignore_hostbits, parse_cidr_ignore_hostbits,
};
use cidr::{Address, Cidr, Inet};

/// The operations with a parser of addresses.
pub fn answer<A>(name: &str, tokens: &mut Tokens<'_>, answer: &mut Answer) -> Outcome
where
    A: Address,
    A::Cidr: Cidr<Address = A> + Value,
    A::Inet: Inet<Address = A>,
{
    let parser = AddressParser::named::<A>(tokens)?;
    let text = tokens.text()?;
    let address = |part: &str| parser.read::<A>(part);
    answer.value(&match name {
        "parse_cidr" => parse_cidr::<A::Cidr, _>(&text, address),
        _ => parse_cidr_ignore_hostbits::<A::Cidr, _>(&text, address),
    })
}

/// The operations with a parser of addresses and one of texts with no slash.
pub fn answer_full<A>(name: &str, tokens: &mut Tokens<'_>, answer: &mut Answer) -> Outcome
where
    A: Address,
    A::Cidr: Cidr<Address = A> + Value,
    A::Inet: Inet<Address = A>,
{
    let address_parser = AddressParser::named::<A>(tokens)?;
    let host_parser = HostParser::of_networks::<A::Cidr>(tokens)?;
    let text = tokens.text()?;
    let address = |part: &str| address_parser.read::<A>(part);
    let host = |whole: &str| host_parser.read::<A::Cidr>(whole);
    answer.value(&match name {
        "parse_cidr_full" => parse_cidr_full::<A::Cidr, _, _>(&text, address, host),
        _ => parse_cidr_full_ignore_hostbits::<A::Cidr, _, _>(&text, address, host),
    })
}
