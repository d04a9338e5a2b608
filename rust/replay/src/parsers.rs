//! Operations on the parsers.

use crate::answer::Answer;
use crate::line_error::Outcome;
use crate::tokens::Tokens;
use crate::values::Value;
use cidr::{Address, Cidr, Inet};

mod address_parsers;
pub mod any;
mod fixed;
mod host_parsers;
mod hosts;
mod loose;
mod networks;

/// The readers of short and loose texts that give a type.
pub trait ShortParsers {
    /// Answers the operation on such a reader that has this name.
    fn answer_short(name: &str, tokens: &mut Tokens<'_>, answer: &mut Answer) -> Outcome;
}

/// Answers the operation that has this name on parsers of networks or hosts, which are told by their addresses.
pub fn answer<A>(name: &str, tokens: &mut Tokens<'_>, answer: &mut Answer) -> Outcome
where
    A: Address + ShortParsers,
    A::Cidr: Cidr<Address = A> + Value,
    A::Inet: Inet<Address = A> + Value,
{
    match name {
        "parse_cidr" | "parse_cidr_ignore_hostbits" => networks::answer::<A>(name, tokens, answer),
        "parse_cidr_full" | "parse_cidr_full_ignore_hostbits" => {
            networks::answer_full::<A>(name, tokens, answer)
        }
        "parse_inet" => hosts::answer::<A, A::Inet>(tokens, answer),
        "parse_inet_full" => hosts::answer_full::<A, A::Inet>(tokens, answer),
        _ => A::answer_short(name, tokens, answer),
    }
}
