//! The entries of access lists: networks, protocols and ports.

use crate::addresses::Endpoint;
use crate::fields::Range;
use crate::regions::Region;
use crate::rules::{Action, Rule};
use cidr::NetworkBits;

/// A protocol that has ports.
#[derive(Debug, Clone, Copy, PartialEq, Eq)]
pub enum Transport {
    /// TCP (RFC 9293), number 6.
    Tcp,
    /// UDP (RFC 768), number 17.
    Udp,
    /// DCCP (RFC 4340), number 33.
    Dccp,
    /// SCTP (RFC 9260), number 132.
    Sctp,
    /// UDP-Lite (RFC 3828), number 136.
    UdpLite,
}

impl Transport {
    /// The number of the protocol, as IANA assigns it.
    ///
    /// ```
    /// # use cidr::*;
    /// # use cidr_rules::*;
    /// # use cidr_support::alloc::Global;
    /// assert_eq!(Transport::Tcp.number(), 6);
    /// # Ok::<(), Box<dyn std::error::Error>>(())
    /// ```
    #[inline]
    pub fn number(self) -> u8 {
        match self {
            Transport::Tcp => 6,
            Transport::Udp => 17,
            Transport::Dccp => 33,
            Transport::Sctp => 132,
            Transport::UdpLite => 136,
        }
    }
}

/// Which packets between its networks an entry is about. Ports are named only beside a protocol that has them.
#[derive(Debug, Clone, Copy)]
pub enum Traffic {
    /// All of them.
    Any,
    /// Those of the protocol with this number, whatever their ports.
    Protocol(u8),
    /// Those of a protocol that has ports, from ports of one range to ports of another.
    Ports(Transport, Range<u16>, Range<u16>),
}

/// An entry of an access list: `permit tcp 10.0.0.0/8 any 443`.
#[derive(Debug, Clone, Copy)]
pub struct Entry<C: NetworkBits + Copy> {
    /// What is done with its packets, where no earlier entry has them.
    pub action: Action,
    /// The network that the packets come from.
    pub source: C,
    /// The network that they go to.
    pub destination: C,
    /// Their protocol and ports.
    pub traffic: Traffic,
}

impl<C: Endpoint> Entry<C> {
    /// The rule about the packets of the entry: those whose source begins with the bits of the one network, whose destination
    /// begins with the bits of the other, and whose protocol and ports it names. Where a packet's protocol has no ports, the
    /// numbers in their place play no part.
    ///
    /// ```
    /// # use cidr::*;
    /// # use cidr_rules::*;
    /// # use cidr_support::alloc::Global;
    /// let traffic = Traffic::Ports(Transport::Tcp, Range { first: 0, last: 65535 }, Range { first: 443, last: 443 });
    /// let any: Ipv4Cidr = "0.0.0.0/0".parse()?;
    /// let entry = Entry { action: Action::Permit, source: "10.0.0.0/8".parse()?, destination: any, traffic };
    /// let packet = Packet { source: "10.0.0.1".parse::<Ipv4Addr>()?, destination: "192.0.2.1".parse()?, protocol: 6, source_port: 50000,
    ///     destination_port: 443 };
    /// assert!(entry.rule().region.contains(&packet));
    /// # Ok::<(), Box<dyn std::error::Error>>(())
    /// ```
    pub fn rule(&self) -> Rule<C::Value> {
        Rule {
            action: self.action,
            region: Region {
                source: self.source.addresses(),
                destination: self.destination.addresses(),
                protocol: protocols(&self.traffic),
                source_port: sources(&self.traffic),
                destination_port: targets(&self.traffic),
            },
        }
    }
}

/// The numbers of the protocols of some packets.
fn protocols(traffic: &Traffic) -> Range<u8> {
    match *traffic {
        Traffic::Any => Range {
            first: 0,
            last: u8::MAX,
        },
        Traffic::Protocol(number) => Range {
            first: number,
            last: number,
        },
        Traffic::Ports(transport, _, _) => {
            let number = transport.number();
            Range {
                first: number,
                last: number,
            }
        }
    }
}

/// The ports that they come from.
#[inline]
fn sources(traffic: &Traffic) -> Range<u16> {
    match *traffic {
        Traffic::Any | Traffic::Protocol(_) => Range {
            first: 0,
            last: u16::MAX,
        },
        Traffic::Ports(_, sources, _) => sources,
    }
}

/// The ports that they go to.
#[inline]
fn targets(traffic: &Traffic) -> Range<u16> {
    match *traffic {
        Traffic::Any | Traffic::Protocol(_) => Range {
            first: 0,
            last: u16::MAX,
        },
        Traffic::Ports(_, _, targets) => targets,
    }
}
