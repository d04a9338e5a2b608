//! Operations on hosts.

use crate::answer::Answer;
use crate::line_error::Outcome;
use crate::queries;
use crate::queries::HasTexts;
use crate::tokens::Tokens;
use crate::values::Value;
use cidr::{Address, Inet};

mod operators;
mod steps;

/// What hosts have beside the calls of `Inet`.
pub trait Host: Copy + HasTexts + Value {
    /// The host by the operator `+`, if the step stays in the network.
    fn add(self, step: u128) -> Option<Self>;

    /// The host by the operator `-`, if the step stays in the network.
    fn sub(self, step: u128) -> Option<Self>;

    /// Answers an operation of this type alone.
    fn answer_own(name: &str, tokens: &mut Tokens<'_>, answer: &mut Answer) -> Outcome;
}

/// Answers the operation that has this name on hosts, which are told by their addresses.
pub fn answer<A: Address + Value>(
    name: &str,
    tokens: &mut Tokens<'_>,
    answer: &mut Answer,
) -> Outcome
where
    A::Cidr: Value,
    A::Inet: Inet<Address = A> + Host,
{
    match name {
        "new" => {
            let address = tokens.value::<A>()?;
            answer.value(&A::Inet::new(address, tokens.number()?))
        }
        "new_host" => answer.value(&A::Inet::new_host(tokens.value::<A>()?)),
        "contains" => {
            let host = tokens.value::<A::Inet>()?;
            answer.value(&host.contains(&tokens.value::<A>()?))
        }
        "show" => show::<A>(tokens, answer),
        "ends" => {
            let host = tokens.value::<A::Inet>()?;
            answer.value(&(host.first(), host.last()))
        }
        "parse" => queries::parse::<A::Inet>(tokens, answer),
        "cmp" => queries::compare::<A::Inet>(tokens, answer),
        "text" => tokens.value::<A::Inet>()?.texts(answer),
        "increment" | "decrement" | "next" | "previous" => {
            steps::answer_single::<A::Inet>(name, tokens, answer)
        }
        "overflowing_add" | "overflowing_sub" | "add" | "sub" => {
            steps::answer_many::<A::Inet>(name, tokens, answer)
        }
        _ => A::Inet::answer_own(name, tokens, answer),
    }
}

/// The address, the network, its ends, the mask, the length, the family, and whether the length is full.
fn show<A: Address + Value>(tokens: &mut Tokens<'_>, answer: &mut Answer) -> Outcome
where
    A::Cidr: Value,
    A::Inet: Inet<Address = A>,
{
    let host = tokens.value::<A::Inet>()?;
    let ends = (host.first_address(), host.last_address());
    let length = (
        host.network_length(),
        (host.family(), host.is_host_address()),
    );
    answer.value(&(
        (host.address(), host.network()),
        (ends, (host.mask(), length)),
    ))
}
