//! Operations on pairs.

use crate::answer::Answer;
use crate::line_error::{LineError, Outcome};
use crate::tokens::Tokens;
use crate::values::Value;
use cidr::{Address, Inet, InetPair};

mod texts;

/// What pairs have beside the calls of `InetPair`.
pub trait PairType: Value {
    /// Answers the plain and the forced text, each by the call for texts and by `Display`.
    fn texts(&self, answer: &mut Answer) -> Outcome;

    /// Answers an operation of this type alone.
    fn answer_own(name: &str, tokens: &mut Tokens<'_>, answer: &mut Answer) -> Outcome;
}

/// Answers the operation that has this name on pairs, which are told by their addresses.
pub fn answer<A: Address>(name: &str, tokens: &mut Tokens<'_>, answer: &mut Answer) -> Outcome
where
    A::Cidr: Value,
    A::Inet: Inet<Address = A> + Value,
    A::InetPair: InetPair<Address = A> + PairType,
{
    match name {
        "new" => {
            let first = tokens.value::<A::Inet>()?;
            answer.value(&A::InetPair::new(first, tokens.value()?))
        }
        "from_addresses" => from_addresses::<A::InetPair>(tokens, answer),
        "show" => show::<A>(tokens, answer),
        "text" => pair::<A::InetPair>(tokens)?.texts(answer),
        "eq" => {
            let one = pair::<A::InetPair>(tokens)?;
            answer.value(&(one == pair::<A::InetPair>(tokens)?))
        }
        _ => A::InetPair::answer_own(name, tokens, answer),
    }
}

/// A pair stands as its two addresses and its length.
pub fn pair<P: InetPair>(tokens: &mut Tokens<'_>) -> Result<P, LineError> {
    let first = tokens.value::<P::Address>()?;
    let second = tokens.value::<P::Address>()?;
    match P::new_from_addresses(first, second, tokens.number()?) {
        Ok(pair) => Ok(pair),
        Err(_) => Err(LineError::Malformed),
    }
}

fn from_addresses<P: InetPair + Value>(tokens: &mut Tokens<'_>, answer: &mut Answer) -> Outcome {
    let first = tokens.value::<P::Address>()?;
    let second = tokens.value::<P::Address>()?;
    let len = tokens.number::<u8>()?;
    answer.value(&P::new_from_addresses(first, second, len))
}

fn show<A: Address>(tokens: &mut Tokens<'_>, answer: &mut Answer) -> Outcome
where
    A::Cidr: Value,
    A::Inet: Value,
    A::InetPair: InetPair<Address = A>,
{
    let pair = pair::<A::InetPair>(tokens)?;
    let length = (pair.network_length(), pair.family());
    answer.value(&((pair.first(), pair.second()), (pair.network(), length)))
}
