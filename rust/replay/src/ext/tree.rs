//! Operations on networks as the nodes of a tree.

use crate::answer::Answer;
use crate::line_error::{LineError, Outcome};
use crate::tokens::Tokens;
use cidr::errors::NetworkParseError;
use cidr::NetworkBits;
use cidr_ext::NetworkExt;
use std::fmt::Debug;
use std::str::FromStr;

/// Answers the operation on nodes that has this name.
pub fn answer<C>(name: &str, tokens: &mut Tokens<'_>, answer: &mut Answer) -> Outcome
where
    C: NetworkBits + Copy + Debug + FromStr<Err = NetworkParseError>,
{
    let network = tokens.value::<C>()?;
    match name {
        "parent" => answer.shown(&network.parent()),
        "supernet" => answer.shown(&network.supernet(tokens.number()?)),
        "halves" => answer.shown(&network.halves()),
        "sibling" => answer.shown(&network.sibling()),
        "is_sibling_of" => answer.shown(&network.is_sibling_of(&tokens.value()?)),
        "overlaps" => answer.shown(&network.overlaps(&tokens.value()?)),
        "spanning" => answer.shown(&network.spanning(&tokens.value()?)),
        _ => Err(LineError::Malformed),
    }
}
