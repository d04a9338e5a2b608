//! Operations on walks.

use crate::answer::Answer;
use crate::line_error::{LineError, Outcome};
use crate::pairs::pair;
use crate::tokens::Tokens;
use crate::values::Value;
use cidr::{drive, Address, Cidr, End, Inet, InetAddressIterator, InetIterator, InetPair};

/// Answers the operation that has this name on walks, which are told by their addresses.
pub fn answer<A: Address + Value>(
    name: &str,
    tokens: &mut Tokens<'_>,
    answer: &mut Answer,
) -> Outcome
where
    A::Cidr: Cidr<Address = A>,
    A::Inet: Inet<Address = A> + Value,
    A::InetPair: InetPair<Address = A>,
{
    match name {
        "" => driven(
            pair::<A::InetPair>(tokens)?.iter().addresses(),
            tokens,
            answer,
        ),
        "hosts" => stepped(pair::<A::InetPair>(tokens)?.iter(), tokens, answer),
        "net" => driven(
            tokens.value::<A::Cidr>()?.iter().addresses(),
            tokens,
            answer,
        ),
        "net_hosts" => stepped(tokens.value::<A::Cidr>()?.iter(), tokens, answer),
        _ => Err(LineError::Malformed),
    }
}

/// Walks over addresses, by one call for all ends.
fn driven<A: Address + Value>(
    mut walk: InetAddressIterator<A>,
    tokens: &mut Tokens<'_>,
    answer: &mut Answer,
) -> Outcome
where
    A::Inet: Inet<Address = A>,
    A::InetPair: InetPair<Address = A>,
{
    let ends = ends(tokens)?;
    let mut items = vec![None; ends.len()];
    drive(&mut walk, &ends, &mut items);
    for item in &items {
        answer.value(item)?;
    }
    left(walk.size_hint(), walk.count(), answer)
}

/// Walks over hosts, by a call for each end.
fn stepped<A: Address>(
    mut walk: InetIterator<A>,
    tokens: &mut Tokens<'_>,
    answer: &mut Answer,
) -> Outcome
where
    A::Inet: Inet<Address = A> + Value,
    A::InetPair: InetPair<Address = A>,
{
    let ends = ends(tokens)?;
    for end in &ends {
        let item = match end {
            End::Front => walk.next(),
            End::Back => walk.next_back(),
        };
        answer.value(&item)?;
    }
    left(walk.size_hint(), walk.count(), answer)
}

/// Answers how many items are left: the two bounds, and the count.
fn left(bounds: (usize, Option<usize>), count: Option<usize>, answer: &mut Answer) -> Outcome {
    answer.word("left")?;
    answer.value(&bounds.0)?;
    answer.value(&bounds.1)?;
    answer.value(&count)
}

/// The ends of the calls: 1 to 256 letters `f` and `b`, or `-` for none.
fn ends(tokens: &mut Tokens<'_>) -> Result<Vec<End>, LineError> {
    match tokens.word()?.as_bytes() {
        b"-" => Ok(Vec::new()),
        letters if (1..=256).contains(&letters.len()) => ends_of(letters),
        _ => Err(LineError::Malformed),
    }
}

fn ends_of(letters: &[u8]) -> Result<Vec<End>, LineError> {
    let mut ends = Vec::new();
    for letter in letters {
        match letter {
            b'f' => ends.push(End::Front),
            b'b' => ends.push(End::Back),
            _ => return Err(LineError::Malformed),
        }
    }
    Ok(ends)
}
