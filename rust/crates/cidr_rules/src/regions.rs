//! Packets, and regions of packets: a range for each field.

use crate::fields::{FieldValue, Range};

/// The fields of a packet that rules look at.
#[derive(Debug, Clone, Copy)]
pub struct Packet<A: FieldValue> {
    /// The address that the packet comes from.
    pub source: A,
    /// The address that it goes to.
    pub destination: A,
    /// The number of its protocol: 6 is TCP, and 17 UDP.
    pub protocol: u8,
    /// The port that it comes from. Where the protocol has no ports, this number plays no part.
    pub source_port: u16,
    /// The port that it goes to.
    pub destination_port: u16,
}

/// The packets whose fields are in ranges.
#[derive(Debug, Clone, Copy)]
pub struct Region<A: FieldValue> {
    /// The addresses that the packets come from.
    pub source: Range<A>,
    /// The addresses that they go to.
    pub destination: Range<A>,
    /// The numbers of their protocols.
    pub protocol: Range<u8>,
    /// The ports that they come from.
    pub source_port: Range<u16>,
    /// The ports that they go to.
    pub destination_port: Range<u16>,
}

impl<A: FieldValue> Region<A> {
    /// Whether a packet is in the region.
    ///
    /// ```
    /// # use cidr::*;
    /// # use cidr_rules::*;
    /// # use cidr_support::alloc::Global;
    /// let traffic = Traffic::Ports(Transport::Tcp, Range { first: 0, last: 65535 }, Range { first: 443, last: 443 });
    /// let any: Ipv4Cidr = "0.0.0.0/0".parse()?;
    /// let entry = Entry { action: Action::Permit, source: "10.0.0.0/8".parse()?, destination: any, traffic };
    /// let other = Entry { action: Action::Deny, source: any, destination: any, traffic: Traffic::Any };
    /// let rules = [entry.rule(), other.rule(), entry.rule()];
    /// let packet = Packet { source: "10.0.0.1".parse::<Ipv4Addr>()?, destination: "192.0.2.1".parse()?, protocol: 6, source_port: 50000,
    ///     destination_port: 443 };
    /// assert!(rules[0].region.contains(&packet));
    /// # Ok::<(), Box<dyn std::error::Error>>(())
    /// ```
    #[inline]
    pub fn contains(&self, packet: &Packet<A>) -> bool {
        self.source.contains(packet.source)
            && self.destination.contains(packet.destination)
            && self.protocol.contains(packet.protocol)
            && self.source_port.contains(packet.source_port)
            && self.destination_port.contains(packet.destination_port)
    }

    /// Whether the region has a packet.
    #[inline]
    pub(crate) fn has_packet(&self) -> bool {
        self.source.has_value()
            && self.destination.has_value()
            && self.protocol.has_value()
            && self.source_port.has_value()
            && self.destination_port.has_value()
    }

    /// Whether in no field one of two regions is below the other.
    #[inline]
    pub(crate) fn meets(&self, other: &Region<A>) -> bool {
        self.source.meets(&other.source)
            && self.destination.meets(&other.destination)
            && self.protocol.meets(&other.protocol)
            && self.source_port.meets(&other.source_port)
            && self.destination_port.meets(&other.destination_port)
    }

    /// Whether in each field the region begins and ends within another.
    #[inline]
    pub(crate) fn is_within(&self, other: &Region<A>) -> bool {
        self.source.is_within(&other.source)
            && self.destination.is_within(&other.destination)
            && self.protocol.is_within(&other.protocol)
            && self.source_port.is_within(&other.source_port)
            && self.destination_port.is_within(&other.destination_port)
    }

    /// The packets of both regions.
    #[inline]
    pub(crate) fn shared(&self, other: &Region<A>) -> Region<A> {
        Region {
            source: self.source.common(&other.source),
            destination: self.destination.common(&other.destination),
            protocol: self.protocol.common(&other.protocol),
            source_port: self.source_port.common(&other.source_port),
            destination_port: self.destination_port.common(&other.destination_port),
        }
    }

    /// Whether in each field the ranges of two regions are the same, or one begins right behind the other.
    #[inline]
    fn is_close(&self, other: &Region<A>) -> bool {
        self.source.is_close(&other.source)
            && self.destination.is_close(&other.destination)
            && self.protocol.is_close(&other.protocol)
            && self.source_port.is_close(&other.source_port)
            && self.destination_port.is_close(&other.destination_port)
    }

    /// In how many fields their ranges differ.
    #[inline]
    fn differing(&self, other: &Region<A>) -> u8 {
        self.source.differing(&other.source)
            + (self.destination.differing(&other.destination)
                + (self.protocol.differing(&other.protocol)
                    + (self.source_port.differing(&other.source_port)
                        + self.destination_port.differing(&other.destination_port))))
    }

    /// Whether two regions, which have no packet in common, are together one region.
    #[inline]
    pub(crate) fn joins(&self, other: &Region<A>) -> bool {
        self.is_close(other) && self.differing(other) == 1
    }

    /// The least region that has the packets of both.
    #[inline]
    pub(crate) fn hull(&self, other: &Region<A>) -> Region<A> {
        Region {
            source: self.source.hull(&other.source),
            destination: self.destination.hull(&other.destination),
            protocol: self.protocol.hull(&other.protocol),
            source_port: self.source_port.hull(&other.source_port),
            destination_port: self.destination_port.hull(&other.destination_port),
        }
    }

    /// The packet of the least values, which is in the region if any is.
    #[inline]
    pub(crate) fn first_packet(&self) -> Packet<A> {
        Packet {
            source: self.source.first,
            destination: self.destination.first,
            protocol: self.protocol.first,
            source_port: self.source_port.first,
            destination_port: self.destination_port.first,
        }
    }
}

/// A field of regions.
pub(crate) trait Field<A: FieldValue>: Sized {
    /// The values of the field.
    type Value: FieldValue;

    /// The range of the field.
    fn range(region: &Region<A>) -> Range<Self::Value>;

    /// The region with this range of the field.
    fn with_range(region: &Region<A>, range: Range<Self::Value>) -> Region<A>;
}

pub(crate) struct Source;

impl<A: FieldValue> Field<A> for Source {
    type Value = A;

    #[inline]
    fn range(region: &Region<A>) -> Range<A> {
        region.source
    }

    #[inline]
    fn with_range(region: &Region<A>, range: Range<A>) -> Region<A> {
        Region {
            source: range,
            ..*region
        }
    }
}

pub(crate) struct Destination;

impl<A: FieldValue> Field<A> for Destination {
    type Value = A;

    #[inline]
    fn range(region: &Region<A>) -> Range<A> {
        region.destination
    }

    #[inline]
    fn with_range(region: &Region<A>, range: Range<A>) -> Region<A> {
        Region {
            destination: range,
            ..*region
        }
    }
}

pub(crate) struct Protocol;

impl<A: FieldValue> Field<A> for Protocol {
    type Value = u8;

    #[inline]
    fn range(region: &Region<A>) -> Range<u8> {
        region.protocol
    }

    #[inline]
    fn with_range(region: &Region<A>, range: Range<u8>) -> Region<A> {
        Region {
            protocol: range,
            ..*region
        }
    }
}

pub(crate) struct SourcePort;

impl<A: FieldValue> Field<A> for SourcePort {
    type Value = u16;

    #[inline]
    fn range(region: &Region<A>) -> Range<u16> {
        region.source_port
    }

    #[inline]
    fn with_range(region: &Region<A>, range: Range<u16>) -> Region<A> {
        Region {
            source_port: range,
            ..*region
        }
    }
}

pub(crate) struct DestinationPort;

impl<A: FieldValue> Field<A> for DestinationPort {
    type Value = u16;

    #[inline]
    fn range(region: &Region<A>) -> Range<u16> {
        region.destination_port
    }

    #[inline]
    fn with_range(region: &Region<A>, range: Range<u16>) -> Region<A> {
        Region {
            destination_port: range,
            ..*region
        }
    }
}
