//! The commands on one host or network.

use crate::errors::{ArgumentError, CommandError};
use crate::output::answers::{Verdict, by_output};
use crate::output::report::write_line;
use cidr_support::arrayvec::ArrayString;
use cidr::{IpCidr, IpInet};
use cidr_ext::{AddressReverseName, CidrExt};
use cidr_io::decimal::decimal_text;
use cidr_io::sink::{OutputFailed, Sink};
use cidr_io::writing::write_text;
use cidr_lists::classes::class_text;
use cidr_lists::descriptions::{family_name, usable_text};
use cidr_lists::wrong::wrong_with;

/// A command on one host or network, and its arguments.
#[derive(Clone, Copy)]
pub enum Single<'a> {
    /// What there is to say of the network of a host.
    Show(&'a str),
    /// The address of a network at an index.
    Nth(&'a str, &'a str),
}

/// Writes what there is to say of a host and its network, whose address is for this.
fn write_host<S: Sink>(
    host: &IpInet,
    class: ArrayString<108>,
    out: &mut S,
) -> Result<(), OutputFailed> {
    let network = host.network();
    write_line(
        out,
        &[
            "network ",
            network.to_text().as_str(),
            "\nfirst ",
            network.first_address().to_text().as_str(),
            "\nlast ",
            network.last_address().to_text().as_str(),
            "\nmask ",
            network.mask().to_text().as_str(),
            "\nhostmask ",
            network.host_mask().to_text().as_str(),
            "\nlength ",
            decimal_text(u128::from(network.network_length())).as_str(),
            "\nfamily ",
            family_name(network.family()),
            "\nusable ",
            usable_text(&network).as_str(),
            "\nname ",
            host.address().reverse_name().as_str(),
            "\nclass ",
            class.as_str(),
            "\n",
        ],
    )
}

/// The command `show`.
#[inline]
fn show<'a, S: Sink>(text: &'a str, out: &mut S) -> Result<Verdict, CommandError<'a>> {
    match text.parse::<IpInet>() {
        Ok(host) => {
            let (class, _) = class_text(&host.address());
            by_output(Verdict::Yes, write_host(&host, class, out))
        }
        Err(e) => Err(CommandError::Argument(text, ArgumentError::Network(wrong_with(text), e))),
    }
}

/// The network that an argument is.
#[inline]
pub fn network_operand<'a>(text: &'a str) -> Result<IpCidr, CommandError<'a>> {
    match text.parse() {
        Ok(network) => Ok(network),
        Err(e) => Err(CommandError::Argument(text, ArgumentError::Network(wrong_with(text), e))),
    }
}

/// The index that an argument is.
#[inline]
fn index_of(text: &str) -> Option<u128> {
    match text.parse() {
        Ok(index) => Some(index),
        Err(_) => None,
    }
}

/// The command `nth`.
fn nth<'a, S: Sink>(net: &'a str, place: &'a str, out: &mut S) -> Result<Verdict, CommandError<'a>> {
    let network = network_operand(net)?;
    let Some(index) = index_of(place) else {
        return Err(CommandError::Argument(place, ArgumentError::Index));
    };
    match network.nth(index) {
        Some(address) => by_output(
            Verdict::Yes,
            write_line(out, &[address.to_text().as_str(), "\n"]),
        ),
        None => by_output(Verdict::No, write_text(out, "")),
    }
}

/// Answers a command on one host or network.
#[inline]
pub fn answer_single<'a, S: Sink>(
    command: Single<'a>,
    out: &mut S,
) -> Result<Verdict, CommandError<'a>> {
    match command {
        Single::Show(host) => show(host, out),
        Single::Nth(net, place) => nth(net, place, out),
    }
}
