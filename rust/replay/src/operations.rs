//! From a line to its answer.

use crate::answer::Answer;
use crate::bits::Bits;
use crate::hosts::Host;
use crate::line_error::{LineError, Outcome};
use crate::networks::Network;
use crate::pairs::PairType;
use crate::parsers::ShortParsers;
use crate::tables::Key;
use crate::tokens::{Kind, Tokens};
use crate::{
    addresses, bits, calls, compact, conversions, covers, ext, families, faults, hosts, networks,
    pairs, parsers, prefixes, sets, sizes, tables, walks,
};
use cidr::{
    AddrParseError, Address, AnyIpCidr, Cidr, FamilyCidr, Inet, InetPair, IpAddr, Ipv4Addr,
    Ipv4Cidr, Ipv4Inet, Ipv6Addr, Ipv6Cidr, Ipv6Inet, PrefixBytes,
};
use cidr_ext::{AddressReverseName, CidrMaskText, CidrReverseName, SpecialAddress};
use cidr_sets::{Addressed, PoolNetwork};
use std::fmt::Debug;
use std::str;
use std::str::FromStr;

/// The answer line to `line`.
///
/// A line that is none of the format gets `malformed`, one that is for the program `cidr_tool` `unsupported`.
pub fn respond(line: &[u8]) -> String {
    let mut answer = Answer::default();
    match answer_line(line, &mut answer) {
        Ok(()) => answer.into_line(),
        Err(e) => e.to_string(),
    }
}

fn answer_line(line: &[u8], answer: &mut Answer) -> Outcome {
    if !line.iter().all(|byte| stands_in_a_line(*byte)) {
        return Err(LineError::Malformed);
    }
    let Ok(line) = str::from_utf8(line) else {
        return Err(LineError::Malformed);
    };
    let mut tokens = Tokens::new(line);
    let (section, name) = section_and_name(tokens.word()?);
    answer_operation(section, name, &mut tokens, answer)?;
    if tokens.is_empty() {
        Ok(())
    } else {
        Err(LineError::Malformed)
    }
}

/// Whether the byte is a visible ASCII character, of which tokens are made, or the space between two tokens.
fn stands_in_a_line(byte: u8) -> bool {
    matches!(byte, b' '..=b'~')
}

/// The word cut at its first dot; a word without one, or with nothing behind it, has no name.
fn section_and_name(word: &str) -> (&str, &str) {
    match word.split_once('.') {
        Some((section, name)) if !name.is_empty() => (section, name),
        _ => (word, ""),
    }
}

fn answer_operation(
    section: &str,
    name: &str,
    tokens: &mut Tokens<'_>,
    answer: &mut Answer,
) -> Outcome {
    match section {
        "family" => families::answer(name, tokens, answer),
        "fault" if name == "eq" => faults::equal(tokens, answer),
        "compact" | "hostcompact" | "agree" => compact::answer(section, name, tokens, answer),
        "convert" if name.is_empty() => conversions::answer(tokens, answer),
        "inside" => ext::inside(name, tokens, answer),
        "calls" => calls::answer(name, tokens, answer),
        "size" if name.is_empty() => sizes::answer(tokens, answer),
        "tool" => Err(LineError::Unsupported),
        _ => answer_of_type(section, name, tokens, answer),
    }
}

/// The operations on a type, which is told by its networks or by its addresses: each section is asked for once a type.
fn answer_of_type(
    section: &str,
    name: &str,
    tokens: &mut Tokens<'_>,
    answer: &mut Answer,
) -> Outcome {
    let kind = tokens.kind()?;
    match section {
        "prefix" | "load" | "hostbits" => of_one_family(kind, section, name, tokens, answer),
        "set" if sets::is_by_index(name) => of_one_family(kind, section, name, tokens, answer),
        "bits" | "table" | "cover" | "set" | "tree" => match kind {
            Kind::V4 => by_network::<Ipv4Cidr>(section, name, tokens, answer),
            Kind::V6 => by_network::<Ipv6Cidr>(section, name, tokens, answer),
            Kind::Any => by_network::<AnyIpCidr>(section, name, tokens, answer),
            Kind::Ip => Err(LineError::Malformed),
        },
        _ => match kind {
            Kind::V4 => by_address::<Ipv4Addr>(section, name, tokens, answer),
            Kind::V6 => by_address::<Ipv6Addr>(section, name, tokens, answer),
            Kind::Ip => by_address::<IpAddr>(section, name, tokens, answer),
            Kind::Any => on_any(section, name, tokens, answer),
        },
    }
}

/// The operations on types of one family alone.
fn of_one_family(
    kind: Kind,
    section: &str,
    name: &str,
    tokens: &mut Tokens<'_>,
    answer: &mut Answer,
) -> Outcome {
    match kind {
        Kind::V4 => by_prefix::<Ipv4Cidr, Ipv4Inet>(section, name, tokens, answer),
        Kind::V6 => by_prefix::<Ipv6Cidr, Ipv6Inet>(section, name, tokens, answer),
        Kind::Ip | Kind::Any => Err(LineError::Malformed),
    }
}

fn by_prefix<C, H>(
    section: &str,
    name: &str,
    tokens: &mut Tokens<'_>,
    answer: &mut Answer,
) -> Outcome
where
    C: FamilyCidr + Key + Network + PrefixBytes,
    C::Address: Debug + FromStr<Err = AddrParseError>,
    H: Bits,
{
    match section {
        "prefix" => prefixes::answer::<C>(name, tokens, answer),
        "load" if name.is_empty() => tables::answer_load::<C>(tokens, answer),
        "hostbits" => bits::answer::<H>(name, tokens, answer),
        "set" => sets::places::indexes::<C>(name, tokens, answer),
        _ => Err(LineError::Malformed),
    }
}

fn by_network<C>(section: &str, name: &str, tokens: &mut Tokens<'_>, answer: &mut Answer) -> Outcome
where
    C: Addressed + Bits + Debug + Key + PoolNetwork,
    C::Address: Debug + FromStr<Err = AddrParseError>,
{
    match section {
        "bits" => bits::answer::<C>(name, tokens, answer),
        "table" if name.is_empty() => tables::answer::<C>(tokens, answer),
        "cover" if name.is_empty() => covers::answer::<C>(tokens, answer),
        "set" => sets::answer::<C>(name, tokens, answer),
        "tree" => ext::tree::answer::<C>(name, tokens, answer),
        _ => Err(LineError::Malformed),
    }
}

fn by_address<A>(section: &str, name: &str, tokens: &mut Tokens<'_>, answer: &mut Answer) -> Outcome
where
    A: addresses::Address + Address + AddressReverseName + ShortParsers + SpecialAddress,
    A::Cidr: Cidr<Address = A> + CidrMaskText + CidrReverseName + Network,
    A::Inet: Inet<Address = A> + Host,
    A::InetPair: InetPair<Address = A> + PairType,
{
    match section {
        "addr" => addresses::answer::<A>(name, tokens, answer),
        "cidr" => networks::answer::<A>(name, tokens, answer),
        "inet" => hosts::answer::<A>(name, tokens, answer),
        "pair" => pairs::answer::<A>(name, tokens, answer),
        "walk" => walks::answer::<A>(name, tokens, answer),
        "parse" => parsers::answer::<A>(name, tokens, answer),
        "fault" => faults::answer::<A>(name, tokens, answer),
        "network" => ext::networks::answer::<A>(name, tokens, answer),
        "name" => ext::names::<A>(name, tokens, answer),
        "mask" => ext::masks::<A::Cidr>(name, tokens, answer),
        "address" => ext::addresses::<A>(name, tokens, answer),
        "special" => ext::special(name, &tokens.value::<A>()?, answer),
        _ => Err(LineError::Malformed),
    }
}

/// The operations on the networks of which one holds all addresses, which have no addresses of one type.
fn on_any(section: &str, name: &str, tokens: &mut Tokens<'_>, answer: &mut Answer) -> Outcome {
    match section {
        "cidr" => networks::any::answer(name, tokens, answer),
        "parse" => parsers::any::answer(name, tokens, answer),
        _ => Err(LineError::Malformed),
    }
}
