//! What addresses and networks are for, by the registries of IANA.

use crate::codes::{NO_VALUE, NONE, OK};
use crate::entries::{entry_of, has_purpose, is_global, is_multicast, is_private, is_unspecified};
use crate::finding::yes_or_no;
use crate::values::{CValue, address_of, one_family_of};
use cidr::IpCidr;
use cidr_ext::{Purpose, SpecialEntry};

/// An entry of the registries of addresses for special purposes. The columns are 0 for no, 1 for yes, and 2 where they do
/// not apply.
#[repr(C)]
#[derive(Clone, Copy)]
pub struct CSpecial {
    /// The upper half of the first address of the block.
    pub high: u64,
    /// The lower half.
    pub low: u64,
    /// The number of the RFC.
    pub rfc: u16,
    /// Its prefix length.
    pub len: u8,
    /// What the block is for.
    pub purpose: u8,
    /// Whether it is valid as a source.
    pub source: u8,
    /// Whether it is valid as a destination.
    pub destination: u8,
    /// Whether routers forward it.
    pub forwardable: u8,
    /// Whether it is globally reachable.
    pub globally_reachable: u8,
    /// Whether implementations treat it in a way of its own.
    pub reserved_by_protocol: u8,
}

/// The entry of an address, that with the longest block that contains it, or none where no block does.
pub fn pcidr_special_entry(address: &CValue, out: &mut CSpecial) -> u32 {
    let Some(address) = address_of(address) else {
        return NO_VALUE;
    };
    let Some(entry) = entry_of(&IpCidr::new_host(address)) else {
        return NONE;
    };
    put_entry(entry, out);
    OK
}

/// Makes the room the entry. Each field is written by itself, as those of a value are.
fn put_entry(entry: &SpecialEntry, out: &mut CSpecial) {
    out.high = (entry.first / (1 << 64)) as u64;
    out.low = (entry.first % (1 << 64)) as u64;
    out.rfc = entry.rfc;
    out.len = entry.len;
    out.purpose = purpose_code(entry.purpose);
    out.source = column_code(entry.source);
    out.destination = column_code(entry.destination);
    out.forwardable = column_code(entry.forwardable);
    out.globally_reachable = column_code(entry.globally_reachable);
    out.reserved_by_protocol = column_code(entry.reserved_by_protocol);
}

/// A column of the registry as a number.
#[inline]
fn column_code(column: Option<bool>) -> u8 {
    match column {
        Some(false) => 0,
        Some(true) => 1,
        None => 2,
    }
}

/// What a block is for, as a number.
fn purpose_code(purpose: Purpose) -> u8 {
    match purpose {
        Purpose::ThisNetwork => 0,
        Purpose::Unspecified => 1,
        Purpose::PrivateUse => 2,
        Purpose::UniqueLocal => 3,
        Purpose::SharedAddressSpace => 4,
        Purpose::Loopback => 5,
        Purpose::LinkLocal => 6,
        Purpose::ProtocolAssignments => 7,
        Purpose::ServiceContinuity => 8,
        Purpose::Dummy => 9,
        Purpose::PortControlAnycast => 10,
        Purpose::TurnAnycast => 11,
        Purpose::ServiceRegistrationAnycast => 12,
        Purpose::Nat64Discovery => 13,
        Purpose::Documentation => 14,
        Purpose::As112 => 15,
        Purpose::DirectAs112 => 16,
        Purpose::MulticastTunneling => 17,
        Purpose::SixToFourRelay => 18,
        Purpose::SixA44Relay => 19,
        Purpose::SixToFour => 20,
        Purpose::Benchmarking => 21,
        Purpose::Reserved => 22,
        Purpose::LimitedBroadcast => 23,
        Purpose::Ipv4Mapped => 24,
        Purpose::Translation => 25,
        Purpose::DiscardOnly => 26,
        Purpose::Teredo => 27,
        Purpose::DeprecatedOrchid => 28,
        Purpose::OrchidV2 => 29,
        Purpose::DroneRemoteId => 30,
        Purpose::SegmentRouting => 31,
        Purpose::ThisHost => 32,
    }
}

/// 1 where the value is an address that is globally reachable by the registries: it has no entry, or one that says so, and 0 where not.
#[inline]
pub fn pcidr_is_global(address: &CValue) -> u32 {
    match address_of(address) {
        Some(address) => yes_or_no(is_global(&IpCidr::new_host(address))),
        None => 0,
    }
}

// A network, as an address is one, is for what the longest block is for that it lies in.

/// 1 where the value is a network that is private (RFC 1918) or unique-local (RFC 4193), and 0 where not.
#[inline]
pub fn pcidr_is_private(network: &CValue) -> u32 {
    match one_family_of(network) {
        Some(network) => yes_or_no(is_private(&network)),
        None => 0,
    }
}

/// 1 where the value is a network that is for loopback, and 0 where not.
#[inline]
pub fn pcidr_is_loopback(network: &CValue) -> u32 {
    match one_family_of(network) {
        Some(network) => yes_or_no(has_purpose(&network, Purpose::Loopback)),
        None => 0,
    }
}

/// 1 where the value is a network that is of unicast addresses of one link, and 0 where not.
#[inline]
pub fn pcidr_is_link_local(network: &CValue) -> u32 {
    match one_family_of(network) {
        Some(network) => yes_or_no(has_purpose(&network, Purpose::LinkLocal)),
        None => 0,
    }
}

/// 1 where the value is a network that is for documentation, and 0 where not.
#[inline]
pub fn pcidr_is_documentation(network: &CValue) -> u32 {
    match one_family_of(network) {
        Some(network) => yes_or_no(has_purpose(&network, Purpose::Documentation)),
        None => 0,
    }
}

/// 1 where the value is a network that is 0.0.0.0 or :: alone, and 0 where not.
#[inline]
pub fn pcidr_is_unspecified(network: &CValue) -> u32 {
    match one_family_of(network) {
        Some(network) => yes_or_no(is_unspecified(&network)),
        None => 0,
    }
}

/// 1 where the value is a network of multicast addresses, and 0 where not.
#[inline]
pub fn pcidr_is_multicast(network: &CValue) -> u32 {
    match one_family_of(network) {
        Some(network) => yes_or_no(is_multicast(&network)),
        None => 0,
    }
}
