//! Operations that call the crate `cidr_ext`, and whose results stand as `Debug` prints them.

use crate::answer::Answer;
use crate::line_error::{LineError, Outcome};
use crate::tokens::Tokens;
use cidr::{Address, Cidr, Inet, InetPair, Ipv4Addr, Ipv4Cidr, Ipv6Addr, Ipv6Cidr};
use cidr_ext::{
    AddressExt, AddressReverseName, CidrMaskText, CidrReverseName, Ipv4AddrExt, Ipv4CidrExt,
    Ipv6AddrExt, Ipv6CidrExt, SpecialAddress,
};
use std::fmt::Debug;

pub mod networks;
pub mod tree;

/// IPv4 addresses and networks inside those of IPv6.
pub fn inside(name: &str, tokens: &mut Tokens<'_>, answer: &mut Answer) -> Outcome {
    match name {
        "address_to_ipv6_mapped" => answer.shown(&tokens.value::<Ipv4Addr>()?.to_ipv6_mapped()),
        "network_to_ipv6_mapped" => answer.shown(&tokens.value::<Ipv4Cidr>()?.to_ipv6_mapped()),
        "address_to_ipv4_mapped" => answer.shown(&tokens.value::<Ipv6Addr>()?.to_ipv4_mapped()),
        "network_to_ipv4_mapped" => answer.shown(&tokens.value::<Ipv6Cidr>()?.to_ipv4_mapped()),
        "to_ipv4_6to4" => answer.shown(&tokens.value::<Ipv6Addr>()?.to_ipv4_6to4()),
        "to_ipv4_nat64" => answer.shown(&tokens.value::<Ipv6Addr>()?.to_ipv4_nat64()),
        _ => Err(LineError::Malformed),
    }
}

/// Names in reverse DNS that are parsed, and the zones of networks.
pub fn names<A>(name: &str, tokens: &mut Tokens<'_>, answer: &mut Answer) -> Outcome
where
    A: Address + AddressExt + AddressReverseName,
    A::Cidr: Cidr<Address = A> + CidrReverseName + Debug,
    A::Inet: Inet<Address = A>,
    A::InetPair: InetPair<Address = A>,
{
    match name {
        "to_network" => answer.shown(&A::Cidr::from_reverse_name(tokens.word()?)),
        "to_address" => answer.shown(&A::from_reverse_name(tokens.word()?)),
        "zones" => zones::<A>(&tokens.value::<A::Cidr>()?, answer),
        _ => Err(LineError::Malformed),
    }
}

/// The names of the zones that a network falls into.
fn zones<A>(network: &A::Cidr, answer: &mut Answer) -> Outcome
where
    A: Address + AddressExt,
    A::Cidr: Cidr<Address = A> + CidrReverseName,
    A::Inet: Inet<Address = A>,
    A::InetPair: InetPair<Address = A>,
{
    let names: Vec<_> = network.reverse_zones().collect();
    answer.shown(&names)
}

/// Networks as strings with a mask.
pub fn masks<C: CidrMaskText + Debug>(
    name: &str,
    tokens: &mut Tokens<'_>,
    answer: &mut Answer,
) -> Outcome {
    match name {
        "to_mask_text" => answer.shown(&tokens.value::<C>()?.to_mask_text()),
        "to_host_mask_text" => answer.shown(&tokens.value::<C>()?.to_host_mask_text()),
        "from_mask_text" => answer.shown(&C::from_mask_text(tokens.word()?)),
        _ => Err(LineError::Malformed),
    }
}

/// The numbers, families, masks and reverse names of addresses.
pub fn addresses<A>(name: &str, tokens: &mut Tokens<'_>, answer: &mut Answer) -> Outcome
where
    A: AddressExt + AddressReverseName,
    A::Cidr: Cidr<Address = A> + CidrReverseName,
{
    let address = tokens.value::<A>()?;
    match name {
        "to_number" => answer.shown(&address.to_number()),
        "family" => answer.shown(&AddressExt::family(address)),
        "mask_length" => answer.shown(&address.mask_length()),
        "host_mask_length" => answer.shown(&address.host_mask_length()),
        "reverse_name" => answer.shown(&address.reverse_name()),
        _ => Err(LineError::Malformed),
    }
}

/// What an address is for.
pub fn special<A: SpecialAddress>(name: &str, address: &A, answer: &mut Answer) -> Outcome {
    match name {
        "special_entry" => answer.shown(&address.special_entry()),
        "is_global" => answer.shown(&address.is_global()),
        "is_private" => answer.shown(&address.is_private()),
        "is_loopback" => answer.shown(&address.is_loopback()),
        "is_link_local" => answer.shown(&address.is_link_local()),
        "is_multicast" => answer.shown(&address.is_multicast()),
        "is_documentation" => answer.shown(&address.is_documentation()),
        "is_unspecified" => answer.shown(&address.is_unspecified()),
        _ => Err(LineError::Malformed),
    }
}
