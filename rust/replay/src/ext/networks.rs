//! Operations on networks of one family: their subnets, neighbours, masks, addresses and reverse names.

use crate::answer::Answer;
use crate::line_error::{LineError, Outcome};
use crate::tokens::Tokens;
use cidr::{Address, Cidr, Inet, InetPair};
use cidr_ext::{AddressExt, CidrExt, CidrReverseName};
use std::fmt::Debug;

/// Answers the operation on networks that has this name.
pub fn answer<A>(name: &str, tokens: &mut Tokens<'_>, answer: &mut Answer) -> Outcome
where
    A: Address + AddressExt,
    A::Cidr: Cidr<Address = A> + CidrReverseName + Debug,
    A::Inet: Inet<Address = A> + Debug,
    A::InetPair: InetPair<Address = A>,
{
    let network = tokens.value::<A::Cidr>()?;
    match name {
        "subnet" => answer.shown(&network.subnet(tokens.number()?, tokens.number()?)),
        "subnets" => subnets::<A>(&network, tokens, answer),
        "address_count" => answer.shown(&network.address_count()),
        "next_network" => answer.shown(&network.next_network()),
        "previous_network" => answer.shown(&network.previous_network()),
        "host_mask" => answer.shown(&network.host_mask()),
        "nth" => answer.shown(&network.nth(tokens.number()?)),
        "position" => answer.shown(&network.position(&tokens.value()?)),
        "usable_hosts" => usable_hosts::<A>(&network, answer),
        "reverse_name" => answer.shown(&network.reverse_name()),
        _ => Err(LineError::Malformed),
    }
}

/// The first and the last usable host, and how many are left then.
fn usable_hosts<A>(network: &A::Cidr, answer: &mut Answer) -> Outcome
where
    A: Address + AddressExt,
    A::Cidr: Cidr<Address = A>,
    A::Inet: Inet<Address = A> + Debug,
    A::InetPair: InetPair<Address = A>,
{
    let mut hosts = network.usable_hosts();
    let ends = (hosts.next(), hosts.next_back());
    answer.shown(&(ends, hosts.count()))
}

/// The size hint of the subnets of a length, and what `next`, `next_back`, `nth`, `next` and `next_back` return then.
fn subnets<A>(network: &A::Cidr, tokens: &mut Tokens<'_>, answer: &mut Answer) -> Outcome
where
    A: Address + AddressExt,
    A::Cidr: Cidr<Address = A> + CidrReverseName + Debug,
    A::Inet: Inet<Address = A>,
    A::InetPair: InetPair<Address = A>,
{
    let Some(mut subnets) = network.subnets(tokens.number()?) else {
        tokens.skip_all();
        return answer.shown(&None::<A::Cidr>);
    };
    let n = tokens.number()?;
    let hint = subnets.size_hint();
    let first = (subnets.next(), subnets.next_back(), subnets.nth(n));
    answer.shown(&(hint, first, subnets.next(), subnets.next_back()))
}
