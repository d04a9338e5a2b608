//! Operations on the parsers of hosts.

use crate::answer::Answer;
use crate::line_error::Outcome;
use crate::parsers::address_parsers::AddressParser;
use crate::parsers::host_parsers::HostParser;
use crate::tokens::Tokens;
use crate::values::Value;
use cidr::parsers::{parse_inet, parse_inet_full};
use cidr::{Address, Inet};

/// The operation with a parser of addresses.
pub fn answer<A: Address, I: Inet<Address = A> + Value>(
    tokens: &mut Tokens<'_>,
    answer: &mut Answer,
) -> Outcome {
    let parser = AddressParser::named::<A>(tokens)?;
    let text = tokens.text()?;
    let address = |part: &str| parser.read::<A>(part);
    answer.value(&parse_inet::<I, _>(&text, address))
}

/// The operation with a parser of addresses and one of texts with no slash.
pub fn answer_full<A: Address, I: Inet<Address = A> + Value>(
    tokens: &mut Tokens<'_>,
    answer: &mut Answer,
) -> Outcome {
    let address_parser = AddressParser::named::<A>(tokens)?;
    let host_parser = HostParser::of_hosts(tokens)?;
    let text = tokens.text()?;
    let address = |part: &str| address_parser.read::<A>(part);
    let host = |whole: &str| host_parser.read::<I>(whole);
    answer.value(&parse_inet_full::<I, _, _>(&text, address, host))
}
