//! The parsers of texts with no slash that a line names.

use crate::line_error::LineError;
use crate::parsers::fixed::{has_ipv4, Fixed};
use crate::tokens::Tokens;
use cidr::errors::NetworkParseError;
use cidr::parsers::parse_short_ip_address_as_cidr;
use cidr::Cidr;
use std::str::FromStr;

const NETWORK: Fixed = Fixed {
    ipv4: "192.0.2.0/24",
    ipv6: "2001:db8::/32",
};

const HOST: Fixed = Fixed {
    ipv4: "192.0.2.1/24",
    ipv6: "2001:db8::1/32",
};

/// A parser of texts with no slash.
#[derive(Clone, Copy)]
pub enum HostParser {
    /// Reads as `FromStr` of the type.
    Strict,
    /// Refuses every text.
    Refuse,
    /// Gives one value for every text.
    Fixed(Fixed),
    /// Reads short texts.
    Short,
}

impl HostParser {
    /// The parser that the next token names, for networks of this type.
    pub fn of_networks<C: Cidr>(tokens: &mut Tokens<'_>) -> Result<HostParser, LineError> {
        match tokens.word()? {
            "hshort" if has_ipv4::<C>() => Ok(HostParser::Short),
            word => HostParser::named(word, NETWORK),
        }
    }

    /// The parser that the next token names, for hosts.
    pub fn of_hosts(tokens: &mut Tokens<'_>) -> Result<HostParser, LineError> {
        HostParser::named(tokens.word()?, HOST)
    }

    fn named(word: &str, fixed: Fixed) -> Result<HostParser, LineError> {
        match word {
            "hstrict" => Ok(HostParser::Strict),
            "hrefuse" => Ok(HostParser::Refuse),
            "hfixed" => Ok(HostParser::Fixed(fixed)),
            _ => Err(LineError::Malformed),
        }
    }

    /// What the parser gives for a text.
    pub fn read<V: FromStr<Err = NetworkParseError>>(
        self,
        text: &str,
    ) -> Result<V, NetworkParseError> {
        match self {
            HostParser::Strict => text.parse::<V>(),
            HostParser::Refuse => Err(NetworkParseError::InvalidHostPart),
            HostParser::Fixed(fixed) => fixed.value::<V>(),
            HostParser::Short => short(text),
        }
    }
}

fn short<V: FromStr<Err = NetworkParseError>>(text: &str) -> Result<V, NetworkParseError> {
    match parse_short_ip_address_as_cidr(text) {
        Ok(network) => network.to_text().as_str().parse::<V>(),
        Err(_) => "".parse::<V>(),
    }
}
