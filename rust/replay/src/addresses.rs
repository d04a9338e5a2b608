//! Operations on addresses.

use crate::answer::Answer;
use crate::line_error::{LineError, Outcome};
use crate::queries;
use crate::tokens::Tokens;
use crate::values::Value;
use cidr::{AddrParseError, IpAddr, Ipv4Addr, Ipv6Addr};
use std::str::FromStr;

/// What addresses have beside the calls of `cidr::Address`.
pub trait Address: Copy + Ord + FromStr<Err = AddrParseError> + Value {
    /// Answers the printed text by the call for texts, by `Display` and by `Debug`.
    fn texts(&self, answer: &mut Answer) -> Outcome;

    /// Answers an operation of this type alone.
    fn answer_own(name: &str, tokens: &mut Tokens<'_>, answer: &mut Answer) -> Outcome;
}

impl Address for Ipv4Addr {
    fn texts(&self, answer: &mut Answer) -> Outcome {
        answer.word(self.to_text().as_str())?;
        answer.display(self)?;
        answer.display(&format_args!("{self:?}"))
    }

    fn answer_own(name: &str, tokens: &mut Tokens<'_>, answer: &mut Answer) -> Outcome {
        match name {
            "new" => {
                let (a, b) = (tokens.number()?, tokens.number()?);
                let (c, d) = (tokens.number()?, tokens.number()?);
                answer.value(&Ipv4Addr::new(a, b, c, d))
            }
            "octets" => answer.bytes(&tokens.value::<Ipv4Addr>()?.octets()),
            "to_bits" => answer.display(&tokens.value::<Ipv4Addr>()?.to_bits()),
            "from_bits" => answer.value(&Ipv4Addr::from_bits(tokens.number()?)),
            _ => Err(LineError::Malformed),
        }
    }
}

impl Address for Ipv6Addr {
    fn texts(&self, answer: &mut Answer) -> Outcome {
        answer.word(self.to_text().as_str())?;
        answer.display(self)?;
        answer.display(&format_args!("{self:?}"))
    }

    fn answer_own(name: &str, tokens: &mut Tokens<'_>, answer: &mut Answer) -> Outcome {
        match name {
            "new" => {
                let [a, b, c, d, e, f, g, h] = tokens.groups()?;
                answer.value(&Ipv6Addr::new(a, b, c, d, e, f, g, h))
            }
            "octets" => answer.bytes(&tokens.value::<Ipv6Addr>()?.octets()),
            "segments" => {
                for group in &tokens.value::<Ipv6Addr>()?.segments() {
                    answer.display(group)?;
                }
                Ok(())
            }
            "to_bits" => answer.display(&tokens.value::<Ipv6Addr>()?.to_bits()),
            "from_bits" => answer.value(&Ipv6Addr::from_bits(tokens.number()?)),
            _ => Err(LineError::Malformed),
        }
    }
}

impl Address for IpAddr {
    fn texts(&self, answer: &mut Answer) -> Outcome {
        answer.word(self.to_text().as_str())?;
        answer.display(self)?;
        answer.display(&format_args!("{self:?}"))
    }

    fn answer_own(name: &str, tokens: &mut Tokens<'_>, answer: &mut Answer) -> Outcome {
        if name != "is" {
            return Err(LineError::Malformed);
        }
        let address = tokens.value::<IpAddr>()?;
        answer.value(&(address.is_ipv4(), address.is_ipv6()))
    }
}

/// Answers the operation on addresses that has this name.
pub fn answer<A: Address>(name: &str, tokens: &mut Tokens<'_>, answer: &mut Answer) -> Outcome {
    match name {
        "parse" => queries::parse::<A>(tokens, answer),
        "cmp" => queries::compare::<A>(tokens, answer),
        "text" => tokens.value::<A>()?.texts(answer),
        _ => A::answer_own(name, tokens, answer),
    }
}
