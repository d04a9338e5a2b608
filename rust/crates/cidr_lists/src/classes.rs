//! What addresses are for, by the registries of IANA, as it is printed.

use crate::printing::block_text;
use cidr_support::arrayvec::ArrayString;
use cidr::IpAddr;
use cidr_ext::{Purpose, SpecialAddress, SpecialEntry};
use cidr_io::decimal::decimal_text;

/// The month of the registries that the entries are of.
const REGISTRY_DATE: &str = "2025-05";

/// What a block of a registry is for, in its words.
fn purpose_name(purpose: Purpose) -> &'static str {
    match purpose {
        Purpose::ThisNetwork => "This-Network",
        Purpose::ThisHost => "This-Host-On-This-Network",
        Purpose::Unspecified => "Unspecified",
        Purpose::PrivateUse => "Private-Use",
        Purpose::UniqueLocal => "Unique-Local",
        Purpose::SharedAddressSpace => "Shared-Address-Space",
        Purpose::Loopback => "Loopback",
        Purpose::LinkLocal => "Link-Local",
        Purpose::ProtocolAssignments => "IETF-Protocol-Assignments",
        Purpose::ServiceContinuity => "IPv4-Service-Continuity",
        Purpose::Dummy => "Dummy",
        Purpose::PortControlAnycast => "PCP-Anycast",
        Purpose::TurnAnycast => "TURN-Anycast",
        Purpose::ServiceRegistrationAnycast => "DNS-SD-SRP-Anycast",
        Purpose::Nat64Discovery => "NAT64/DNS64-Discovery",
        Purpose::Documentation => "Documentation",
        Purpose::As112 => "AS112",
        Purpose::DirectAs112 => "Direct-Delegation-AS112",
        Purpose::MulticastTunneling => "AMT",
        Purpose::SixToFourRelay => "Deprecated-6to4-Relay-Anycast",
        Purpose::SixA44Relay => "6a44-Relay-Anycast",
        Purpose::SixToFour => "6to4",
        Purpose::Benchmarking => "Benchmarking",
        Purpose::Reserved => "Reserved",
        Purpose::LimitedBroadcast => "Limited-Broadcast",
        Purpose::Ipv4Mapped => "IPv4-Mapped",
        Purpose::Translation => "IPv4-IPv6-Translation",
        Purpose::DiscardOnly => "Discard-Only",
        Purpose::Teredo => "TEREDO",
        Purpose::DeprecatedOrchid => "Deprecated-ORCHID",
        Purpose::OrchidV2 => "ORCHIDv2",
        Purpose::DroneRemoteId => "Drone-Remote-ID",
        Purpose::SegmentRouting => "SRv6-SIDs",
    }
}

/// Whether addresses are globally reachable, by the column of a registry.
#[inline]
fn reach_name(reachable: Option<bool>) -> &'static str {
    match reachable {
        Some(true) => "global",
        Some(false) => "not-global",
        None => "n/a",
    }
}

/// What is told of an entry of a registry.
fn entry_text(entry: &SpecialEntry) -> ArrayString<64> {
    let mut text = ArrayString::new();
    text.push_str(purpose_name(entry.purpose));
    text.push_str(" RFC");
    text.push_str(decimal_text(u128::from(entry.rfc)).as_str());
    text.push_str(" ");
    text.push_str(reach_name(entry.globally_reachable));
    text.push_str(" ");
    text.push_str(REGISTRY_DATE);
    text
}

/// The block of an address and what is told of its entry, or a hyphen, and whether it has one.
pub fn class_text(address: &IpAddr) -> (ArrayString<108>, bool) {
    let mut text = ArrayString::new();
    match address.special_entry() {
        Some(entry) => {
            text.push_str(block_text(address, entry.len).as_str());
            text.push_str(" ");
            text.push_str(entry_text(entry).as_str());
            (text, true)
        }
        None => {
            text.push_str("-");
            (text, false)
        }
    }
}

/// The line of an address, and whether it has an entry: `10.1.2.3 10.0.0.0/8 Private-Use RFC1918 not-global 2025-05`, or
/// `8.8.8.8 -` without one. It goes through the registry of its family, some 30 entries.
#[inline]
pub fn class_line(address: &IpAddr) -> (ArrayString<149>, bool) {
    let (class, found) = class_text(address);
    let mut line = ArrayString::new();
    line.push_str(address.to_text().as_str());
    line.push_str(" ");
    line.push_str(class.as_str());
    line.push_str("\n");
    (line, found)
}
