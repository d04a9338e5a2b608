//! Operations on prefix bytes.

use crate::answer::Answer;
use crate::line_error::{LineError, Outcome};
use crate::networks::Network;
use crate::tokens::Tokens;
use cidr::PrefixBytes;

/// Answers the operation on prefix bytes that has this name.
pub fn answer<N: PrefixBytes + Network>(
    name: &str,
    tokens: &mut Tokens<'_>,
    answer: &mut Answer,
) -> Outcome {
    match name {
        "to" => answer.bytes(tokens.value::<N>()?.to_prefix_bytes().as_slice()),
        "from" => answer.value(&N::from_prefix_bytes(tokens.bytes()?.as_slice())),
        _ => Err(LineError::Malformed),
    }
}
