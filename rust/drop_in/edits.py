"""Edits of the written crate `cidr` for the edition over `core::net`, by which it takes the place of the crate `cidr` 0.3.2.

Each edit is what it is for, the files, what it looks for and what stands there then. Every place of the file is changed, and
a file without one is an error. A form that begins with `re:` is a regular expression. `shims` has whole files beside.
"""

NETWORKS = "cidr/network.rs cidr/combined.rs cidr/any.rs inet/host.rs inet/combined.rs inet_pair/host_pair.rs inet_pair/combined.rs"

EDITS = [
    # Addresses are those of `core::net`. They are parsed and printed by the proved functions.
    ("no addresses of its own", "addr.rs", "mod std_net;\n", ""),
    ("proved printing", "addr.rs", "re:\\Z", '''
use cidr_support::arrayvec::ArrayString;

/// The printed string of an address, for the crates over this one.
pub trait AddressToText {
    fn to_text(&self) -> ArrayString<39>;
}

impl AddressToText for v4::Ipv4Addr {
    fn to_text(&self) -> ArrayString<39> {
        let mut text = ArrayString::new();
        v4::push_v4(self, &mut text);
        text
    }
}

impl AddressToText for v6::Ipv6Addr {
    fn to_text(&self) -> ArrayString<39> {
        let mut text = ArrayString::new();
        v6::push_v6(self, &mut text);
        text
    }
}
'''),
    ("numbers of addresses", "internal_traits/address_bits.rs internal_traits/single_bits.rs",
     "use crate::addr::v6::Ipv6Addr;", "use crate::addr::v6::{InHalves, Ipv6Addr};"),
    ("proved parsing", "internal_traits/address_bits.rs", r"re:(Ipv([46])Addr, AddrParseError> \{\n *)text\.parse\(\)",
     r"\1crate::addr::v\2::read_v\2(text)"),
    ("proved printing", "internal_traits/address_bits.rs", r"re:(impl AddressText for Ipv([46])Addr \{.*?) self\.push_to\(text\)",
     r"\1 crate::addr::v\2::push_v\2(self, text)"),
    ("proved printing", "traits/family_cidr.rs", "use crate::addr::v4::Ipv4Addr;", "use crate::addr::v4::Ipv4Addr;\nuse crate::addr::AddressToText;"),
    ("proved parsing", "parsers/loose.rs parsers/short.rs cidr/combined.rs inet/combined.rs",
     r"re:\b(s|front)\.parse::<IpAddr>\(\)", r"crate::addr::ip::read_ip(\1)"),
    ("proved parsing", "parsers/loose.rs", "s.parse::<Ipv4Addr>()", "crate::addr::v4::read_v4(s)"),
    ("proved parsing", "parsers/short.rs", "(s, Ipv4Addr::from_str,", "(s, crate::addr::v4::read_v4,"),
    ("proved parsing", "parsers/short.rs", "(s, IpAddr::from_str,", "(s, crate::addr::ip::read_ip,"),
    ("proved parsing", "parsers/any.rs", "(s, IpAddr::from_str)", "(s, crate::addr::ip::read_ip)"),
    ("std's error", "parsers/short.rs", "AddrParseError::ipv4()", "crate::addr::error::ipv4()"),

    # Errors are those of `core::net` and `core::num`, with their messages, kinds and sources.
    ("std's error", "lib.rs parsers/loose.rs", "// Err(invalid IPv4 address syntax)", "// Err(AddrParseError(Ipv4))"),
    ("std's error", "errors.rs", "re:(?:///[^\n]*\n)+#\\[derive[^\n]*\npub struct ParseIntError \\{\\}.*?impl Error for ParseIntError \\{\\}",
     "#[doc(no_inline)]\npub use core::num::ParseIntError;"),
    ("std's message", "errors.rs", "re:const INVALID_LENGTH_TEXT[^\n]*\n\n", ""),
    ("std's message", "errors.rs", "re:impl NetworkParseError \\{.*?\n\\}\n\n", ""),
    ("std's message", "errors.rs", "re:(impl fmt::Display for NetworkParseError \\{\n[^\n]*\n)[^\n]*\n", r'''\1        match self {
            NetworkParseError::InvalidHostPart => f.write_str("host part of address was not zero"),
            NetworkParseError::AddrParseError(e) => {
                write!(f, "couldn't parse address in network: {e}")
            }
            NetworkParseError::NetworkLengthParseError(e) => {
                write!(f, "couldn't parse length in network: {e}")
            }
            NetworkParseError::NetworkLengthTooLongError(e) => {
                write!(f, "invalid length for network: {e}")
            }
        }
'''),
    ("the cause of an error", "errors.rs", "impl Error for NetworkParseError {}", '''impl Error for NetworkParseError {
    fn source(&self) -> Option<&(dyn Error + 'static)> {
        match self {
            NetworkParseError::InvalidHostPart => None,
            NetworkParseError::AddrParseError(e) => Some(e),
            NetworkParseError::NetworkLengthParseError(e) => Some(e),
            NetworkParseError::NetworkLengthTooLongError(e) => Some(e),
        }
    }
}'''),
    ("the cause of an error", "errors.rs", "impl Error for InetTupleError {}", '''impl Error for InetTupleError {
    fn source(&self) -> Option<&(dyn Error + 'static)> {
        match self {
            InetTupleError::NotInSharedNetwork => None,
            InetTupleError::NetworkLengthTooLongError(e) => Some(e),
        }
    }
}'''),
    ("what an error is called", "errors.rs", r"re:(impl Error for (NetworkLengthTooLong|NetworkParse|InetTuple)Error) \{(\})?",
     lambda found: f'''{found[1]} {{
    fn description(&self) -> &str {{
        "{ {'NetworkLengthTooLong': 'network length too long', 'NetworkParse': 'network parse error', 'InetTuple': 'inet tuple error'}[found[2]] }"
    }}
''' + ("}" if found[3] else "")),
    ("std's error", "text/read.rs", "digits.ok_or(NetworkParseError::NetworkLengthParseError(ParseIntError {}))\n}",
     '''digits.ok_or_else(|| NetworkParseError::NetworkLengthParseError(length_error(text)))
}

/// The error of `core::num` for what is no number below 256.
#[cold]
fn length_error(text: &[u8]) -> ParseIntError {
    match core::str::from_utf8(text).unwrap_or("").parse::<u8>() {
        Err(e) => e,
        Ok(_) => unreachable!(),
    }
}'''),

    # What the crate has besides.
    ("bounds between the types of a trait", "traits.rs", r"re:type (Inet|Cidr|InetPair): Priv\1;", r"type \1: \1<Address = Self>;"),
    ("bounds between the types of a trait", "traits.rs", r"re:(pub trait (Cidr|Inet|InetPair): .*?type Address: Address);", r"\1<\2 = Self>;"),
    ("`{:#}`", NETWORKS, "re:(impl[^\n]*fmt::Display for (?!WithLength)[^\n]*\n[^\n]*\n)", r'''\1        if f.alternate() {
            return f.write_str(self.with_length().to_text().as_str());
        }
'''),
    ("`Debug` of a pair, of which no contract speaks", "inet_pair/host_pair.rs",
     r're:\.field\("first", &self\.first\)\n *\.field\("second", &self\.second\)\n *\.field\("len", &self\.len\)',
     '.field("first", &self.first())\n            .field("second", &self.second())'),
    ("`count` of `Iterator`", "inet_iterator.rs", "pub fn count(self)", "pub fn checked_count(self)"),
    ("`count` of `Iterator`", "inet_iterator.rs", "use `count`", "use `checked_count`"),
    ("`count` of `Iterator`", "inet_iterator.rs", "It takes no step, unlike `Iterator::count`.", "It takes no step. `count` panics there."),
    ("`count` of `Iterator`", "inet_iterator.rs inet_pair/v4.rs inet_pair/v6.rs inet_pair/combined.rs lib.rs traits.rs",
     r"re:\.count\(\)(?= // )", ".checked_count()"),
    ("`count` of `Iterator`", "inet_iterator.rs", "self.inner.count()", "self.inner.checked_count()"),
    ("`count` of `Iterator`", "inet_iterator.rs", "re:(    fn size_hint\\(&self\\)[^\n]*\n[^\n]*\n    \\}\n)", r'''\1
    /// Panics if there are 2^64 or more.
    fn count(self) -> usize {
        self.checked_count().expect("iterator count overflow")
    }
'''),
    ("iterators that are `Copy`", "inet_iterator.rs", r"re:impl<A: Address> Clone for (\w+)<A>",
     r'''impl<A: Address> Copy for \1<A> where A::InetPair: InetPair<Address = A> {}

impl<A: Address> Clone for \1<A>'''),
    ("names that the crate has not stand in a module", "lib.rs", "re:pub use addr::error::AddrParseError;\n.*?pub use traits::\\{[^\n]*\n",
     '''#[cfg(feature = "bitstring")]
mod bitstring_forms;
#[cfg(feature = "serde")]
mod serde_forms;

pub use cidr::any::AnyIpCidr;
pub use cidr::combined::IpCidr;
pub use cidr::network::{Ipv4Cidr, Ipv6Cidr};
pub use family::Family;
pub use inet::combined::IpInet;
pub use inet::host::{Ipv4Inet, Ipv6Inet};
pub use inet_iterator::{InetAddressIterator, InetIterator};
pub use inet_pair::combined::IpInetPair;
pub use inet_pair::host_pair::{Ipv4InetPair, Ipv6InetPair};
pub use traits::{Address, Cidr, Inet, InetPair};

/// What is here besides: compact and prefix bytes, strings of bits, and walks from both ends.
pub mod more {
    pub use crate::bits::{BitString, NetworkBits};
    pub use crate::cidr::network::Network;
    pub use crate::inet::host::Host;
    pub use crate::inet_pair::host_pair::HostPair;
    pub use crate::inet_iterator::driving::{End, drive};
    pub use crate::prefix_bytes::PrefixBytes;
    pub use crate::traits::family_cidr::FamilyCidr;
    pub use crate::text::with_length::WithLength;

    pub mod canon {
        pub use crate::canon::{Canonical, agree};
    }
}

/// The names that the written crate `cidr` has at its head, for the crates that are written over it.
#[doc(hidden)]
pub mod names {
    pub use crate::addr::error::AddrParseError;
    pub use crate::addr::ip::IpAddr;
    pub use crate::addr::v4::Ipv4Addr;
    pub use crate::addr::v6::Ipv6Addr;
    pub use crate::addr::AddressToText;
    pub use crate::more::{canon, *};
    pub use crate::{errors, parsers, *};
}
'''),
    ("names that the crate has not stand in a module", "lib.rs", "pub mod canon;", "mod canon;"),
]
