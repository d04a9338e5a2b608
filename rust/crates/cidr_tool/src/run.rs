//! Answering the commands.

use crate::commands::{Command, command_of};
use crate::errors::ToolError;
use crate::walks::{Ends, write_walk};
use cidr_support::arrayvec::ArrayString;
use cidr::parsers::parse_loose_ip;
use cidr::{AnyIpCidr, Family, IpAddr, IpCidr};
use cidr_io::decimal::decimal_text;
use cidr_io::shown::hex_digit;
use cidr_io::sink::Sink;
use cidr_io::writing::write_text;
use core::cmp::Ordering;

/// The most bytes of an answer to `show`: 44 of names and line feeds, 43 of the network, three addresses of 39, a
/// length of 3 and a family of 4.
const MOST_SHOWN: usize = 211;

/// An answer to `show`.
type Shown = ArrayString<MOST_SHOWN>;

/// Appends a line: a name and its value.
#[inline]
fn push_line(text: &mut Shown, name: &str, value: &str) {
    text.push_str(name);
    text.push_str(value);
    text.push_str("\n");
}

/// What there is to say of a network of either family.
fn shown_network(text: &str, network: &IpCidr) -> Shown {
    let mut shown = Shown::new();
    push_line(&mut shown, "network ", text);
    push_line(
        &mut shown,
        "first ",
        network.first_address().to_text().as_str(),
    );
    push_line(
        &mut shown,
        "last ",
        network.last_address().to_text().as_str(),
    );
    push_line(&mut shown, "mask ", network.mask().to_text().as_str());
    push_line(
        &mut shown,
        "length ",
        decimal_text(u128::from(network.network_length())).as_str(),
    );
    push_line(&mut shown, "family ", variant_name(network.family()));
    shown
}

/// The name of the variant of a family.
#[inline]
fn variant_name(family: Family) -> &'static str {
    match family {
        Family::Ipv4 => "Ipv4",
        Family::Ipv6 => "Ipv6",
    }
}

/// What there is to say of a network.
#[inline]
fn shown(network: &AnyIpCidr) -> Shown {
    let text = network.to_text();
    if let Some(specific) = Option::<IpCidr>::from(*network) {
        return shown_network(text.as_str(), &specific);
    }
    let mut shown = Shown::new();
    push_line(&mut shown, "network ", text.as_str());
    shown
}

/// The command `show`.
#[inline]
fn show<S: Sink>(net: &str, out: &mut S) -> Result<(), ToolError> {
    let network = net.parse::<AnyIpCidr>()?;
    Ok(write_text(out, shown(&network).as_str())?)
}

/// The command `in`.
#[inline]
fn holds<S: Sink>(net: &str, text: &str, out: &mut S) -> Result<(), ToolError> {
    let holder = net.parse::<AnyIpCidr>()?;
    let address = text.parse::<IpAddr>()?;
    Ok(write_text(out, yes_or_no(holder.contains(&address)))?)
}

/// The line that answers a question of yes or no.
#[inline]
fn yes_or_no(answer: bool) -> &'static str {
    if answer { "yes\n" } else { "no\n" }
}

/// The command `cmp`.
#[inline]
fn compare<S: Sink>(left: &str, right: &str, out: &mut S) -> Result<(), ToolError> {
    let first = left.parse::<AnyIpCidr>()?;
    let second = right.parse::<AnyIpCidr>()?;
    Ok(write_text(out, order_name(order_of(&first, &second)))?)
}

/// The order of two networks, which is that of their bits.
#[inline]
fn order_of(left: &AnyIpCidr, right: &AnyIpCidr) -> Ordering {
    left.cmp(right)
}

/// The line that names an order.
#[inline]
fn order_name(order: Ordering) -> &'static str {
    match order {
        Ordering::Less => "less\n",
        Ordering::Equal => "equal\n",
        Ordering::Greater => "greater\n",
    }
}

/// The command `walk`.
#[inline]
fn walk<S: Sink>(net: &str, ends: &Ends, out: &mut S) -> Result<(), ToolError> {
    let network = net.parse::<IpCidr>()?;
    write_walk(&network, ends.as_slice(), out)
}

/// Two digits for each of 17 compact bytes, and a line feed.
const MOST_HEX: usize = 35;

/// Appends the two digits of a byte.
#[inline]
fn push_byte(line: &mut ArrayString<MOST_HEX>, byte: u8) {
    line.push(hex_digit(byte / 16));
    line.push(hex_digit(byte % 16));
}

/// The line of bytes in hexadecimal.
#[inline]
fn hex_line(bytes: &[u8]) -> ArrayString<MOST_HEX> {
    let mut line = ArrayString::new();
    for byte in bytes {
        push_byte(&mut line, *byte);
    }
    line.push('\n');
    line
}

/// The command `bytes`.
#[inline]
fn bytes<S: Sink>(net: &str, out: &mut S) -> Result<(), ToolError> {
    let value = net.parse::<AnyIpCidr>()?;
    Ok(write_text(out, hex_line(value.to_compact().as_slice()).as_str())?)
}

/// The longest string of an address, and a line feed.
const MOST_LINE: usize = 40;

/// The line of an address.
#[inline]
fn address_line(address: &IpAddr) -> ArrayString<MOST_LINE> {
    let mut line = ArrayString::new();
    line.push_str(address.to_text().as_str());
    line.push_str("\n");
    line
}

/// The command `loose`.
#[inline]
fn loose<S: Sink>(text: &str, out: &mut S) -> Result<(), ToolError> {
    let address = parse_loose_ip(text)?;
    Ok(write_text(out, address_line(&address).as_str())?)
}

/// Answers the program's arguments, which come without its name.
///
/// Whether they are a command is found first, then the first argument that is rejected, and only then is anything
/// written.
pub fn run<S: Sink>(words: &[&str], out: &mut S) -> Result<(), ToolError> {
    let Some(command) = command_of(words) else {
        return Err(ToolError::Usage);
    };
    match &command {
        Command::Show(net) => show(net, out),
        Command::Holds(net, address) => holds(net, address, out),
        Command::Compare(left, right) => compare(left, right, out),
        Command::Walk(net, ends) => walk(net, ends, out),
        Command::Bytes(net) => bytes(net, out),
        Command::Loose(text) => loose(text, out),
    }
}
