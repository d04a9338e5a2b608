//! Operations on the families.

use crate::answer::Answer;
use crate::line_error::{LineError, Outcome};
use crate::tokens::Tokens;
use cidr::Family;

/// Answers the operation on families that has this name.
pub fn answer(name: &str, tokens: &mut Tokens<'_>, answer: &mut Answer) -> Outcome {
    match name {
        "cmp" => {
            let one = family(tokens)?;
            answer.value(&one.cmp(&family(tokens)?))
        }
        "show" => {
            let family = family(tokens)?;
            let addresses = (family.unspecified_address(), family.loopback_address());
            answer.value(&(family.len(), addresses))
        }
        _ => Err(LineError::Malformed),
    }
}

fn family(tokens: &mut Tokens<'_>) -> Result<Family, LineError> {
    match tokens.word()? {
        "Ipv4" => Ok(Family::Ipv4),
        "Ipv6" => Ok(Family::Ipv6),
        _ => Err(LineError::Malformed),
    }
}
