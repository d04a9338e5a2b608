//! The parsers of addresses that a line names.

use crate::line_error::LineError;
use crate::parsers::fixed::{has_ipv4, Fixed};
use crate::tokens::Tokens;
use cidr::parsers::parse_loose_ip;
use cidr::{AddrParseError, Address};

const LOCALHOST: Fixed = Fixed {
    ipv4: "127.0.0.1",
    ipv6: "::1",
};

const UNSPECIFIED: Fixed = Fixed {
    ipv4: "0.0.0.0",
    ipv6: "::",
};

/// What the text `any` stands for where a parser knows it.
const GIVEN_FOR_ANY: Fixed = Fixed {
    ipv4: "10.0.0.1",
    ipv6: "2001:db8::1",
};

/// A parser of addresses.
#[derive(Clone, Copy)]
pub enum AddressParser {
    /// Reads the type's address texts.
    Strict,
    /// Knows `localhost`, and reads strictly else.
    Localhost,
    /// Refuses every text.
    Refuse,
    /// Knows three texts that are no address texts, and refuses all others.
    Odd,
    /// Reads loose texts too.
    Loose,
}

impl AddressParser {
    /// The parser that the next token names, for addresses of this type.
    pub fn named<A: Address>(tokens: &mut Tokens<'_>) -> Result<AddressParser, LineError> {
        match tokens.word()? {
            "strict" => Ok(AddressParser::Strict),
            "localhost" => Ok(AddressParser::Localhost),
            "refuse" => Ok(AddressParser::Refuse),
            "odd" => Ok(AddressParser::Odd),
            "loose" if has_ipv4::<A>() => Ok(AddressParser::Loose),
            _ => Err(LineError::Malformed),
        }
    }

    /// What the parser gives for a text.
    pub fn read<A: Address>(self, text: &str) -> Result<A, AddrParseError> {
        match self {
            AddressParser::Strict => text.parse::<A>(),
            AddressParser::Localhost => by_name(text),
            AddressParser::Refuse => refused(),
            AddressParser::Odd => odd(text),
            AddressParser::Loose => loose(text),
        }
    }
}

fn by_name<A: Address>(text: &str) -> Result<A, AddrParseError> {
    match text {
        "localhost" => LOCALHOST.value(),
        _ => text.parse::<A>(),
    }
}

fn odd<A: Address>(text: &str) -> Result<A, AddrParseError> {
    match text {
        "local/host" => LOCALHOST.value(),
        "" => UNSPECIFIED.value(),
        "any" => GIVEN_FOR_ANY.value(),
        _ => refused(),
    }
}

fn loose<A: Address>(text: &str) -> Result<A, AddrParseError> {
    match parse_loose_ip(text) {
        Ok(address) => address.to_text().as_str().parse::<A>(),
        Err(_) => refused(),
    }
}

/// What strict reading gives for a text that is no address.
fn refused<A: Address>() -> Result<A, AddrParseError> {
    "".parse::<A>()
}
