//! Operations on sets whose arguments or results are addresses: ranges, counts and indexes.

use crate::answer::Answer;
use crate::line_error::{LineError, Outcome};
use crate::sets::lists::set;
use crate::tokens::Tokens;
use cidr::errors::NetworkParseError;
use cidr::{AddrParseError, FamilyCidr};
use cidr_sets::{Addressed, NetworkSet};
use cidr_table::alloc::Global;
use std::fmt::Debug;
use std::str::FromStr;

/// The operations on ranges.
pub fn ranges<C>(name: &str, tokens: &mut Tokens<'_>, answer: &mut Answer) -> Outcome
where
    C: Addressed + Copy + Debug + FromStr<Err = NetworkParseError>,
    C::Address: Debug + FromStr<Err = AddrParseError>,
{
    if name == "from_range" {
        let (first, last) = (tokens.value()?, tokens.value()?);
        let set = NetworkSet::<C>::from_range(Global, first, last)?;
        return answer.shown(&set.as_slice());
    }
    let set = set::<C>(tokens)?;
    let ranges: Vec<_> = set
        .ranges()
        .map(|range| (range.first, range.last))
        .collect();
    answer.shown(&ranges)
}

/// The operations on the addresses of a set by their index.
pub fn indexes<C>(name: &str, tokens: &mut Tokens<'_>, answer: &mut Answer) -> Outcome
where
    C: FamilyCidr + FromStr<Err = NetworkParseError>,
    C::Address: Debug + FromStr<Err = AddrParseError>,
{
    let set = set::<C>(tokens)?;
    match name {
        "address_count" => answer.shown(&set.address_count()),
        "nth" => answer.shown(&set.nth(tokens.number()?)),
        "position" => answer.shown(&set.position(tokens.value()?)),
        "addresses" => {
            let mut left = set.addresses();
            let ends = (left.next(), left.next_back());
            answer.shown(&(ends, left.next(), left.next_back()))
        }
        _ => Err(LineError::Malformed),
    }
}
