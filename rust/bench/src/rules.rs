//! Access lists: rules that decide nothing, and two lists beside one another.
//!
//! The lists are like those of borders and data centres: nested networks of 10.0.0.0/8, sources from anywhere in one rule of
//! twelve, destinations anywhere in one of a hundred, one network with a port list in rules one behind the other, known ports
//! and ranges, and at the end some hundred networks that are denied, and a rule for all.

use crate::bench::{Bench, Work};
use crate::values::{mixed, random};
use cidr::{Ipv4Addr, Ipv4Cidr, Ipv4Inet};
use cidr_rules::{differences, differing_packet, pruned, shadowed, Action, Entry, Packet, Range, Rule, Traffic, Transport};
use cidr_support::alloc::{AllocError, Global};
use cidr_support::vec::Vec;

/// Known ports.
const PORTS: [u16; 16] = [22, 25, 53, 80, 88, 110, 123, 143, 161, 389, 443, 445, 514, 1433, 3306, 8443];

/// More parts than the lists need.
const LIMIT: u64 = 1 << 40;

const WHOLE: Range<u16> = Range { first: 0, last: u16::MAX };

/// A network of so many bits in 10.0.0.0/8.
fn inner(number: u64, len: u8) -> Ipv4Cidr {
    let address = Ipv4Addr::from_bits(0x0a00_0000 | (number & 0x00ff_ffff) as u32);
    Ipv4Inet::new(address, len).unwrap_or(Ipv4Inet::new_host(address)).network()
}

/// One of the networks that rules name: a campus, a site, a subnet or a host, each in one of those before.
fn network(number: u64) -> Ipv4Cidr {
    let site = number >> 8 & 0x000f_0300;
    match number % 8 {
        0 => inner(site, 16),
        1 | 2 => inner(site, 24),
        3 | 4 => inner(site | number >> 24 & 0xc0, 26),
        _ => inner(site | number >> 24 & 0xff, 32),
    }
}

/// All addresses.
fn anywhere() -> Ipv4Cidr {
    inner(0, 0)
}

/// What the rule is about, by a random number.
fn traffic(number: u64) -> Traffic {
    let port = PORTS[(number >> 8) as usize % PORTS.len()];
    let one = Range { first: port, last: port };
    match number % 16 {
        0 => Traffic::Any,
        1 => Traffic::Protocol(1),
        2 => Traffic::Ports(Transport::Tcp, WHOLE, Range { first: 1024, last: u16::MAX }),
        3 | 4 => Traffic::Ports(Transport::Udp, WHOLE, one),
        _ => Traffic::Ports(Transport::Tcp, WHOLE, one),
    }
}

/// The entry at an index of a list of so many.
fn entry(index: usize, size: usize) -> Entry<Ipv4Cidr> {
    // three rules in a row are a port list between the same networks
    let (pair, own) = (random(index / 3), random(index ^ 0x0100_0000));
    let source = if pair % 12 == 0 { anywhere() } else { network(pair >> 4) };
    let destination = if pair >> 40 & 127 == 0 { anywhere() } else { network(random(index / 3 ^ 0x0200_0000)) };
    let denied = Entry { action: Action::Deny, source: network(own), destination: anywhere(), traffic: Traffic::Any };
    match size - index {
        1 => Entry { source: anywhere(), ..denied },
        behind if behind <= size / 10 => denied,
        _ => {
            let action = if own >> 32 & 15 == 0 { Action::Deny } else { Action::Permit };
            Entry { action, source, destination, traffic: traffic(own) }
        }
    }
}

/// A list of so many rules.
fn list(size: usize) -> Result<Vec<Rule<Ipv4Addr>>, AllocError> {
    let mut rules = Vec::with_capacity(Global, size)?;
    for index in 0..size {
        rules.push(entry(index, size).rule())?;
    }
    Ok(rules)
}

/// The list with some rules changed: each of so many from the end permits what it denied, and denies what it permitted.
fn edited(rules: &[Rule<Ipv4Addr>], edits: usize) -> Result<Vec<Rule<Ipv4Addr>>, AllocError> {
    let mut others = Vec::from_slice(Global, rules)?;
    for edit in 0..edits {
        let index = others.len() * (edit + 1) / (edits + 2);
        let action = match others[index].action {
            Action::Permit => Action::Deny,
            Action::Deny => Action::Permit,
        };
        others[index].action = action;
    }
    Ok(others)
}

/// A number that hangs on a packet.
fn packet_number(packet: &Packet<Ipv4Addr>) -> u32 {
    packet.source.to_bits() ^ packet.destination.to_bits() ^ u32::from(packet.source_port) ^ u32::from(packet.destination_port)
}

struct Shadowed<'a>(&'a [Rule<Ipv4Addr>]);

impl Work for Shadowed<'_> {
    fn round(&mut self, _round: u32, sum: u32) -> u32 {
        let found = shadowed(Global, self.0, LIMIT).map_or(0, |it| it.len());
        mixed(sum, found as u32)
    }
}

struct Pruned<'a>(&'a [Rule<Ipv4Addr>]);

impl Work for Pruned<'_> {
    fn round(&mut self, _round: u32, sum: u32) -> u32 {
        let left = pruned(Global, self.0, LIMIT).map_or(0, |it| it.len());
        mixed(sum, left as u32)
    }
}

struct Differing<'a>(&'a [Rule<Ipv4Addr>], &'a [Rule<Ipv4Addr>]);

impl Work for Differing<'_> {
    fn round(&mut self, _round: u32, sum: u32) -> u32 {
        let found = differing_packet(Global, self.0, self.1, LIMIT).ok().flatten();
        mixed(sum, found.as_ref().map_or(0, packet_number))
    }
}

struct Differences<'a>(&'a [Rule<Ipv4Addr>], &'a [Rule<Ipv4Addr>]);

impl Work for Differences<'_> {
    fn round(&mut self, _round: u32, sum: u32) -> u32 {
        let found = differences(Global, self.0, self.1, LIMIT).map_or(0, |it| it.len());
        mixed(sum, found as u32)
    }
}

/// Times calls on lists of so many rules.
fn time(bench: &Bench<'_>, size: usize) -> Result<(), AllocError> {
    let rules = list(size)?;
    let rules = rules.as_slice();
    let few = edited(rules, 5)?;
    let many = edited(rules, size / 10)?;
    let short = pruned(Global, rules, LIMIT).unwrap_or(Vec::new(Global));
    bench.time("rules shadowed", 1, Shadowed(rules))?;
    bench.time("rules pruned", 1, Pruned(rules))?;
    bench.time("rules differing, pruned", 1, Differing(rules, short.as_slice()))?;
    bench.time("rules differing, 5 edits", 1, Differing(rules, few.as_slice()))?;
    bench.time("rules differences, 5 edits", 1, Differences(rules, few.as_slice()))?;
    bench.time("rules differences, a tenth edited", 1, Differences(rules, many.as_slice()))
}

/// Times calls on lists of 1,000 and 5,000 rules, each in one round.
pub fn time_all(bench: &Bench<'_>) -> Result<(), AllocError> {
    if bench.quiet {
        return time(bench, 100);
    }
    time(&bench.of("of 1000"), 1_000)?;
    time(&bench.of("of 5000"), 5_000)
}
