//! The entries of the IANA registries of addresses for special purposes.

/// What an address block is for, in words of the registries of IANA.
///
/// Two blocks of one purpose share the word, as 10.0.0.0/8 and 192.168.0.0/16 do, or 127.0.0.0/8 and ::1/128.
#[derive(Clone, Copy, Debug, PartialEq, Eq)]
pub enum Purpose {
    /// "This network" (RFC 791, 3.2).
    ThisNetwork,
    /// "This host on this network", of IPv4 (RFC 1122, 3.2.1.3).
    ThisHost,
    /// Unspecified Address, of IPv6 (RFC 4291, 2.5.2).
    Unspecified,
    /// Private-Use (RFC 1918).
    PrivateUse,
    /// Unique-Local (RFC 4193), the private addresses of IPv6.
    UniqueLocal,
    /// Shared Address Space, between a provider and its customers (RFC 6598).
    SharedAddressSpace,
    /// Loopback (RFC 1122, 3.2.1.3; RFC 4291, 2.5.3).
    Loopback,
    /// Link-Local (RFC 3927; RFC 4291, 2.5.6).
    LinkLocal,
    /// IETF Protocol Assignments (RFC 6890, 2.1; RFC 2928), which have entries of their own inside.
    ProtocolAssignments,
    /// IPv4 Service Continuity Prefix (RFC 7335).
    ServiceContinuity,
    /// The dummy address of IPv4 (RFC 7600) and the dummy prefix of IPv6 (RFC 9780).
    Dummy,
    /// Port Control Protocol Anycast (RFC 7723).
    PortControlAnycast,
    /// Traversal Using Relays around NAT Anycast (RFC 8155).
    TurnAnycast,
    /// DNS-SD Service Registration Protocol Anycast (RFC 9665).
    ServiceRegistrationAnycast,
    /// NAT64/DNS64 Discovery (RFC 7050, 2.2).
    Nat64Discovery,
    /// Documentation (RFC 5737; RFC 3849; RFC 9637).
    Documentation,
    /// AS112 by DNAME redirection (RFC 7535).
    As112,
    /// Direct Delegation AS112 Service (RFC 7534).
    DirectAs112,
    /// Automatic Multicast Tunneling (RFC 7450).
    MulticastTunneling,
    /// Deprecated 6to4 Relay Anycast (RFC 7526).
    SixToFourRelay,
    /// 6a44-relay anycast address (RFC 6751).
    SixA44Relay,
    /// 6to4 (RFC 3056).
    SixToFour,
    /// Benchmarking (RFC 2544; RFC 5180).
    Benchmarking,
    /// Reserved (RFC 1112, 4).
    Reserved,
    /// Limited Broadcast (RFC 919, 7).
    LimitedBroadcast,
    /// IPv4-mapped Address (RFC 4291, 2.5.5.2).
    Ipv4Mapped,
    /// IPv4-IPv6 translation (RFC 6052; RFC 8215).
    Translation,
    /// Discard-Only Address Block (RFC 6666).
    DiscardOnly,
    /// TEREDO (RFC 4380).
    Teredo,
    /// Deprecated, previously ORCHID (RFC 4843).
    DeprecatedOrchid,
    /// ORCHIDv2 (RFC 7343).
    OrchidV2,
    /// Drone Remote ID Protocol Entity Tags (RFC 9374).
    DroneRemoteId,
    /// Segment Routing (SRv6) SIDs (RFC 9602).
    SegmentRouting,
}

/// An entry of a registry: an address block, and what holds of its addresses (RFC 6890, 2.2.1).
///
/// A column is `None` where the registry has "N/A" or nothing, as for a block whose allocation ended.
#[derive(Clone, Copy, Debug, PartialEq, Eq)]
pub struct SpecialEntry {
    /// The first address of the block, as a number.
    pub first: u128,
    /// The prefix length of the block.
    pub len: u8,
    /// What the block is for.
    pub purpose: Purpose,
    /// The number of the RFC that the registry cites, of several that of the purpose.
    pub rfc: u16,
    /// Whether an address of the block is valid as the source of a packet that goes between two devices.
    pub source: Option<bool>,
    /// Whether it is valid as the destination of such a packet.
    pub destination: Option<bool>,
    /// Whether a router may forward a packet with such a destination between its interfaces.
    pub forwardable: Option<bool>,
    /// Whether such a packet may be forwarded beyond an administrative domain (RFC 8190).
    pub globally_reachable: Option<bool>,
    /// Whether implementations of IP treat the block in a way of its own.
    pub reserved_by_protocol: Option<bool>,
}

/// "True" in a column.
const T: Option<bool> = Some(true);

/// "False" in a column.
const F: Option<bool> = Some(false);

/// "N/A" or nothing in a column.
const N: Option<bool> = None;

/// An entry by the number of its first address, and the columns in the order of the registry.
macro_rules! entry {
    ($first:expr, $len:literal, $purpose:ident, $rfc:literal, [$s:ident, $d:ident, $f:ident, $g:ident, $r:ident]) => {
        SpecialEntry {
            first: $first,
            len: $len,
            purpose: Purpose::$purpose,
            rfc: $rfc,
            source: $s,
            destination: $d,
            forwardable: $f,
            globally_reachable: $g,
            reserved_by_protocol: $r,
        }
    };
}

/// An entry by the octets of its first address.
macro_rules! ipv4 {
    ([$a:literal, $b:literal, $c:literal, $d:literal] / $len:literal, $purpose:ident, $rfc:literal, $columns:tt) => {
        entry!(($a << 24) + ($b << 16) + ($c << 8) + $d, $len, $purpose, $rfc, $columns)
    };
}

/// An entry by the groups of its first address.
macro_rules! ipv6 {
    ([$a:literal, $b:literal, $c:literal, $d:literal, $e:literal, $f:literal, $g:literal, $h:literal] / $len:literal,
        $purpose:ident, $rfc:literal, $columns:tt) => {
        entry!(
            ($a << 112) + ($b << 96) + ($c << 80) + ($d << 64) + ($e << 48) + ($f << 32) + ($g << 16) + $h,
            $len, $purpose, $rfc, $columns
        )
    };
}

/// The IANA IPv4 Special-Purpose Address Registry, as of May 2025.
///
/// The columns are source, destination, forwardable, globally reachable and reserved by protocol. Behind each entry
/// stands the month of its allocation, and if it has ended, of its end.
pub static IPV4_ENTRIES: [SpecialEntry; 26] = [
    ipv4!([0, 0, 0, 0] / 8, ThisNetwork, 791, [T, F, F, F, T]), // 1981-09
    ipv4!([0, 0, 0, 0] / 32, ThisHost, 1122, [T, F, F, F, T]), // 1981-09
    ipv4!([10, 0, 0, 0] / 8, PrivateUse, 1918, [T, T, T, F, F]), // 1996-02
    ipv4!([100, 64, 0, 0] / 10, SharedAddressSpace, 6598, [T, T, T, F, F]), // 2012-04
    ipv4!([127, 0, 0, 0] / 8, Loopback, 1122, [F, F, F, F, T]), // 1981-09
    ipv4!([169, 254, 0, 0] / 16, LinkLocal, 3927, [T, T, F, F, T]), // 2005-05
    ipv4!([172, 16, 0, 0] / 12, PrivateUse, 1918, [T, T, T, F, F]), // 1996-02
    ipv4!([192, 0, 0, 0] / 24, ProtocolAssignments, 6890, [F, F, F, F, F]), // 2010-01
    ipv4!([192, 0, 0, 0] / 29, ServiceContinuity, 7335, [T, T, T, F, F]), // 2011-06
    ipv4!([192, 0, 0, 8] / 32, Dummy, 7600, [T, F, F, F, F]), // 2015-03
    ipv4!([192, 0, 0, 9] / 32, PortControlAnycast, 7723, [T, T, T, T, F]), // 2015-10
    ipv4!([192, 0, 0, 10] / 32, TurnAnycast, 8155, [T, T, T, T, F]), // 2017-02
    ipv4!([192, 0, 0, 170] / 32, Nat64Discovery, 7050, [F, F, F, F, T]), // 2013-02
    ipv4!([192, 0, 0, 171] / 32, Nat64Discovery, 7050, [F, F, F, F, T]), // 2013-02
    ipv4!([192, 0, 2, 0] / 24, Documentation, 5737, [F, F, F, F, F]), // 2010-01
    ipv4!([192, 31, 196, 0] / 24, As112, 7535, [T, T, T, T, F]), // 2014-12
    ipv4!([192, 52, 193, 0] / 24, MulticastTunneling, 7450, [T, T, T, T, F]), // 2014-12
    ipv4!([192, 88, 99, 0] / 24, SixToFourRelay, 7526, [N, N, N, N, N]), // 2001-06 to 2015-03
    ipv4!([192, 88, 99, 2] / 32, SixA44Relay, 6751, [T, T, T, F, F]), // 2012-10
    ipv4!([192, 168, 0, 0] / 16, PrivateUse, 1918, [T, T, T, F, F]), // 1996-02
    ipv4!([192, 175, 48, 0] / 24, DirectAs112, 7534, [T, T, T, T, F]), // 1996-01
    ipv4!([198, 18, 0, 0] / 15, Benchmarking, 2544, [T, T, T, F, F]), // 1999-03
    ipv4!([198, 51, 100, 0] / 24, Documentation, 5737, [F, F, F, F, F]), // 2010-01
    ipv4!([203, 0, 113, 0] / 24, Documentation, 5737, [F, F, F, F, F]), // 2010-01
    ipv4!([240, 0, 0, 0] / 4, Reserved, 1112, [F, F, F, F, T]), // 1989-08
    ipv4!([255, 255, 255, 255] / 32, LimitedBroadcast, 919, [F, T, F, F, T]), // 1984-10
];

/// The IANA IPv6 Special-Purpose Address Registry, as of May 2025.
///
/// The columns are source, destination, forwardable, globally reachable and reserved by protocol. Behind each entry
/// stands the month of its allocation, and if it has ended, of its end.
pub static IPV6_ENTRIES: [SpecialEntry; 25] = [
    ipv6!([0, 0, 0, 0, 0, 0, 0, 0x1] / 128, Loopback, 4291, [F, F, F, F, T]), // 2006-02
    ipv6!([0, 0, 0, 0, 0, 0, 0, 0] / 128, Unspecified, 4291, [T, F, F, F, T]), // 2006-02
    ipv6!([0, 0, 0, 0, 0, 0xffff, 0, 0] / 96, Ipv4Mapped, 4291, [F, F, F, F, T]), // 2006-02
    ipv6!([0x64, 0xff9b, 0, 0, 0, 0, 0, 0] / 96, Translation, 6052, [T, T, T, T, F]), // 2010-10
    ipv6!([0x64, 0xff9b, 0x1, 0, 0, 0, 0, 0] / 48, Translation, 8215, [T, T, T, F, F]), // 2017-06
    ipv6!([0x100, 0, 0, 0, 0, 0, 0, 0] / 64, DiscardOnly, 6666, [T, T, T, F, F]), // 2012-06
    ipv6!([0x100, 0, 0, 0x1, 0, 0, 0, 0] / 64, Dummy, 9780, [T, F, F, F, F]), // 2025-04
    ipv6!([0x2001, 0, 0, 0, 0, 0, 0, 0] / 23, ProtocolAssignments, 2928, [F, F, F, F, F]), // 2000-09
    ipv6!([0x2001, 0, 0, 0, 0, 0, 0, 0] / 32, Teredo, 4380, [T, T, T, N, F]), // 2006-01
    ipv6!([0x2001, 0x1, 0, 0, 0, 0, 0, 0x1] / 128, PortControlAnycast, 7723, [T, T, T, T, F]), // 2015-10
    ipv6!([0x2001, 0x1, 0, 0, 0, 0, 0, 0x2] / 128, TurnAnycast, 8155, [T, T, T, T, F]), // 2017-02
    ipv6!([0x2001, 0x1, 0, 0, 0, 0, 0, 0x3] / 128, ServiceRegistrationAnycast, 9665, [T, T, T, T, F]), // 2024-04
    ipv6!([0x2001, 0x2, 0, 0, 0, 0, 0, 0] / 48, Benchmarking, 5180, [T, T, T, F, F]), // 2008-04
    ipv6!([0x2001, 0x3, 0, 0, 0, 0, 0, 0] / 32, MulticastTunneling, 7450, [T, T, T, T, F]), // 2014-12
    ipv6!([0x2001, 0x4, 0x112, 0, 0, 0, 0, 0] / 48, As112, 7535, [T, T, T, T, F]), // 2014-12
    ipv6!([0x2001, 0x10, 0, 0, 0, 0, 0, 0] / 28, DeprecatedOrchid, 4843, [N, N, N, N, N]), // 2007-03 to 2014-03
    ipv6!([0x2001, 0x20, 0, 0, 0, 0, 0, 0] / 28, OrchidV2, 7343, [T, T, T, T, F]), // 2014-07
    ipv6!([0x2001, 0x30, 0, 0, 0, 0, 0, 0] / 28, DroneRemoteId, 9374, [T, T, T, T, F]), // 2022-12
    ipv6!([0x2001, 0xdb8, 0, 0, 0, 0, 0, 0] / 32, Documentation, 3849, [F, F, F, F, F]), // 2004-07
    ipv6!([0x2002, 0, 0, 0, 0, 0, 0, 0] / 16, SixToFour, 3056, [T, T, T, N, F]), // 2001-02
    ipv6!([0x2620, 0x4f, 0x8000, 0, 0, 0, 0, 0] / 48, DirectAs112, 7534, [T, T, T, T, F]), // 2011-05
    ipv6!([0x3fff, 0, 0, 0, 0, 0, 0, 0] / 20, Documentation, 9637, [F, F, F, F, F]), // 2024-07
    ipv6!([0x5f00, 0, 0, 0, 0, 0, 0, 0] / 16, SegmentRouting, 9602, [T, T, T, F, F]), // 2024-04
    ipv6!([0xfc00, 0, 0, 0, 0, 0, 0, 0] / 7, UniqueLocal, 4193, [T, T, T, F, F]), // 2005-10
    ipv6!([0xfe80, 0, 0, 0, 0, 0, 0, 0] / 10, LinkLocal, 4291, [T, T, F, F, T]), // 2006-02
];
